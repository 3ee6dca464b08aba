//! Steps that many cases begin with, by their names.

/// w1 has asked s1 for `out (1, 1)` and has its answer: 1.1 was sent to s1 and 1.1 was heard of it, and the log has 2
/// acts.
const ANSWERED: &str = "issue; s1: reply 1 1.1 by 3 done to out (1, 1)";

/// Then w1 has asked s2 for `out (1)` and has its answer: 1.2 was sent to s2 and 1.4 was heard of it, and the log has
/// 4 acts.
const ANSWERED_BY_BOTH: &str = "issue; s1: reply 1 1.1 by 3 done to out (1, 1); issue; \
    s2: reply 2 1.4 by 9 done to out (1)";

/// s1 has heard of w1 with 1.1: the log has 1 act.
const ASKED: &str = "w1: request 1 1.1 by 1 out (1, 1)";

/// Then s1 has served w1, to whom it sent 1.1: the log has 2 acts.
const SERVED: &str = "w1: request 1 1.1 by 1 out (1, 1); serve w1 0 by 1";

/// A check of one's own in which s1, or w1, says yes: its checkpoint is permanent.
const SAVED_BY_S1: &str = "check; s1: vote 1 1 yes; decide; learn";

const SAVED_BY_W1: &str = "check; w1: vote 1 1 yes; decide; learn";

/// Who begins the first instance as a rollback and gets Yes, a worker and a shard with two neighbours each.
const WORKER_BACK: &str = "fail; restart; s1: vote 1 2 yes; s2: vote 1 2 yes; decide";

const SHARD_BACK: &str = "fail; restart; w1: vote 1 2 yes; w2: vote 1 2 yes; decide";

/// s1 has heard 1.1 of w1 and keeps 1.2 of w1, 1.1 of w2 and 1.3 of w1, in this order.
const KEEPS_THREE: &str =
    "w1: request 1 1.1 by 1 out (1, 1); check; w1: request 2 1.2 by 3 out (2, 2); \
    w2: request 1 1.1 by 4 out (3, 3); w1: request 2 1.3 by 5 out (2, 2)";

/// The steps of this name, or the step itself where it is no name.
pub(crate) fn named(step: &str) -> &str {
    match step {
        "answered" => ANSWERED,
        "answered by both" => ANSWERED_BY_BOTH,
        "asked" => ASKED,
        "served" => SERVED,
        "saved by s1" => SAVED_BY_S1,
        "saved by w1" => SAVED_BY_W1,
        "worker back" => WORKER_BACK,
        "shard back" => SHARD_BACK,
        "keeps three" => KEEPS_THREE,
        _ => step,
    }
}
