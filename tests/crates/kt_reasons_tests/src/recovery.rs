//! Refused steps of checks, and of nodes that failed.

use crate::rows::Row;

/// Nodes that failed.
pub(crate) static OF_FAILURES: &[Row] = &[
    (
        "",
        "restart w1",
        "w1 is up, and only a node that failed restarts: take this line away, or write `fail w1` above it",
        "fail w1\nrestart w1\n",
    ),
    (
        "fail w1\n",
        "issue w1",
        "w1 is down since it failed: write above this line `restart w1`, which asks all others to roll back,\n  \
         then `deliver w1 s1` and `deliver s1 w1` and at last `decide w1`",
        "restart w1\ndeliver w1 s1\ndeliver s1 w1\ndecide w1\nissue w1\n",
    ),
    (
        "issue w1\nfail w1\n",
        "issue w1",
        "w1 is down since it failed: write above this line `restart w1`, which asks all others to roll back,\n  \
         then `deliver w1 s1` 2 times and `deliver s1 w1` and at last `decide w1`",
        "restart w1\ndeliver w1 s1\ndeliver w1 s1\ndeliver s1 w1\ndeliver s1 w2\ndeliver w1 s1\ndeliver w2 \
         s1\ndeliver s1 w1\ndecide w1\nissue w1\n",
    ),
    (
        "fail w1\n",
        "fail w1",
        "w1 has failed already: take this line away",
        "",
    ),
    (
        "fail w1\n",
        "decide w1",
        "w1 has failed and decides nothing: take this line away; `restart w1` brings it back",
        "restart w1\n",
    ),
    (
        "fail w1\n",
        "abandon w1",
        "w1 is down and began nothing that is open: take this line away; `restart w1` brings it back",
        "restart w1\n",
    ),
    (
        "fail w1\n",
        "learn w1",
        "w1 is down and saved nothing that is undecided: take this line away; `restart w1` brings it back",
        "restart w1\n",
    ),
    (
        "fail w1\nrestart w1\n",
        "decide w1",
        "w1 awaits the vote of s1: write `deliver w1 s1` and `deliver s1 w1` above this line and try again",
        "deliver w1 s1\ndeliver s1 w1\ndecide w1\n",
    ),
    (
        "fail w1\nrestart w1\n",
        "issue w1",
        "w1 rolls back and can do nothing else before that is over: write above this line\n  `deliver w1 s1` and \
         `deliver s1 w1` for the vote of s1, and at last `decide w1`",
        "deliver w1 s1\ndeliver s1 w1\ndecide w1\nissue w1\n",
    ),
    (
        "fail w1\nrestart w1\ndeliver w1 s1\n",
        "issue w1",
        "w1 rolls back and can do nothing else before that is over: write above this line\n  `deliver s1 w1` for \
         the vote of s1, and at last `decide w1`",
        "deliver s1 w1\ndecide w1\nissue w1\n",
    ),
    (
        "fail w1\nrestart w1\ndeliver w1 s1\ndeliver s1 w1\n",
        "issue w1",
        "w1 rolls back and can do nothing else before that is over: write above this line `decide w1`",
        "decide w1\nissue w1\n",
    ),
    (
        "fail w1\nrestart w1\n",
        "restart w1",
        "w1 has restarted already and rolls back: take this line away",
        "",
    ),
    (
        "fail w1\nrestart w1\n",
        "learn w1",
        "w1 began this rollback and learns nothing: take this line away; `decide w1` ends it",
        "",
    ),
    (
        "fail w1\nrestart w1\n",
        "deliver s1 w1",
        "s1 has sent nothing to w1 that is still on its way: write `deliver w1 s1` above this line",
        "deliver w1 s1\ndeliver s1 w1\n",
    ),
    (
        "fail w1\nrestart w1\nabandon w1\n",
        "decide w1",
        "that is decided already: write `restart w1` in place of this line",
        "restart w1\n",
    ),
    (
        "check s1\nfail s1\n",
        "restart s1",
        "s1 failed while it was saving its state or rolling back: write `abandon s1` and `learn s1` above this line",
        "abandon s1\nlearn s1\nrestart s1\n",
    ),
    (
        "check s1\nfail s1\n",
        "learn s1",
        "s1 began this check itself and never decided it: write `abandon s1` above this line",
        "abandon s1\nlearn s1\n",
    ),
];

/// Checks, of one node and of two.
pub(crate) static OF_CHECKS: &[Row] = &[
    (
        "",
        "decide w1",
        "w1 is up and has begun nothing to decide: take this line away, or write `check w1` above it",
        "check w1\ndecide w1\n",
    ),
    (
        "",
        "abandon w1",
        "w1 is up and has begun nothing to give up: take this line away",
        "",
    ),
    (
        "",
        "learn w1",
        "w1 is up and has nothing to learn: take this line away\n  (`learn w1` comes after a `decide`, while w1 \
         saves its state or rolls back with others)",
        "",
    ),
    (
        "check w1\n",
        "issue w1",
        "w1 is saving its state and can do nothing else before that is over: write above this line `decide w1` and \
         `learn w1`",
        "decide w1\nlearn w1\nissue w1\n",
    ),
    (
        "check w1\ndecide w1\n",
        "issue w1",
        "w1 is saving its state and can do nothing else before that is over: write above this line `learn w1`",
        "learn w1\nissue w1\n",
    ),
    (
        "check w1\n",
        "learn w1",
        "there is no verdict yet that w1 could learn: write `decide w1` above this line",
        "decide w1\nlearn w1\n",
    ),
    (
        "check w1\ndecide w1\n",
        "decide w1",
        "that is decided already: write `learn w1` in place of this line",
        "learn w1\n",
    ),
    (
        "check w1\ndecide w1\n",
        "abandon w1",
        "that is decided already: write `learn w1` in place of this line",
        "learn w1\n",
    ),
    (
        "check w1\n",
        "restart w1",
        "w1 is saving its state and has not failed: take this line away",
        "",
    ),
    (
        "issue w1\ndeliver w1 s1\nserve s1 w1 0\ndeliver s1 w1\ncheck w1\n",
        "decide w1",
        "w1 awaits the vote of s1: write `deliver w1 s1` and `deliver s1 w1` above this line and try again",
        "deliver w1 s1\ndeliver s1 w1\ndeliver w1 s1\ndeliver s1 w1\ndecide w1\n",
    ),
    (
        "issue w1\ndeliver w1 s1\nserve s1 w1 0\ndeliver s1 w1\ncheck w1\n",
        "issue w1",
        "w1 is saving its state and can do nothing else before that is over: write above this line\n  `deliver w1 \
         s1` and `deliver s1 w1` for the vote of s1, and at last `decide w1` and `learn w1`",
        "deliver w1 s1\ndeliver s1 w1\ndeliver w1 s1\ndeliver s1 w1\ndecide w1\nlearn w1\nissue w1\n",
    ),
    (
        "issue w1\ndeliver w1 s1\nserve s1 w1 0\ndeliver s1 w1\ncheck w1\ndeliver w1 s1\ndeliver s1 w1\n",
        "decide w1",
        "w1 awaits the vote of s1: write `deliver w1 s1` and `deliver s1 w1` above this line and try again",
        "deliver w1 s1\ndeliver s1 w1\ndecide w1\n",
    ),
    (
        "issue w1\ndeliver w1 s1\nserve s1 w1 0\ndeliver s1 w1\ncheck w1\ndeliver w1 s1\n",
        "decide s1",
        "s1 takes part in what w1 began, which w1 alone decides: write `deliver s1 w1` and at last `decide w1` in \
         place of this line",
        "deliver s1 w1\ndeliver w1 s1\ndeliver s1 w1\ndecide w1\n",
    ),
    (
        "issue w1\ndeliver w1 s1\nserve s1 w1 0\ndeliver s1 w1\ncheck w1\ndeliver w1 s1\ndeliver s1 w1\ndeliver w1 \
         s1\n",
        "abandon s1",
        "s1 takes part in what w1 began, which w1 alone decides: write `abandon w1` in place of this line",
        "abandon w1\n",
    ),
    (
        "issue w1\ndeliver w1 s1\nserve s1 w1 0\ndeliver s1 w1\ncheck w1\ndeliver w1 s1\n",
        "learn s1",
        "w1 awaits the vote of s1: write `deliver s1 w1` above this line and try again",
        "deliver s1 w1\ndeliver w1 s1\ndeliver s1 w1\ndecide w1\nlearn s1\n",
    ),
    (
        "issue w1\ndeliver w1 s1\nserve s1 w1 0\ndeliver s1 w1\ncheck w1\ndeliver w1 s1\ndeliver s1 w1\ndeliver w1 \
         s1\ndeliver s1 w1\n",
        "learn s1",
        "there is no verdict yet that s1 could learn: write `decide w1` above this line",
        "decide w1\nlearn s1\n",
    ),
    (
        "issue w1\ndeliver w1 s1\nserve s1 w1 0\ndeliver s1 w1\ncheck w1\ndeliver w1 s1\nissue w2\ndeliver w2 s1\n",
        "serve s1 w2 0",
        "s1 is saving its state and can do nothing else before that is over: write above this line\n  `deliver s1 \
         w1` for the vote of s1, and at last `decide w1` and `learn s1`",
        "deliver s1 w1\ndeliver w1 s1\ndeliver s1 w1\ndecide w1\nlearn s1\ntake s1\n",
    ),
    (
        "issue w1\ncheck s1\ndeliver w1 s1\ndecide s1\nlearn s1\n",
        "serve s1 w1 0",
        "the request of w1 has not come to s1 yet: write `take s1` above this line",
        "take s1\nserve s1 w1 0\n",
    ),
    (
        "issue w1\ncheck w1\ndeliver w1 s1\nserve s1 w1 0\ndeliver s1 w1\ndecide w1\nlearn w1\n",
        "issue w1",
        "w1 hears first what it keeps back: write `take w1` above this line",
        "take w1\nissue w1\n",
    ),
    (
        "issue w1\ndeliver w1 s1\nserve s1 w1 0\ndeliver s1 w1\ncheck w1\ndeliver w1 s1\nfail s1\n",
        "restart s1",
        "s1 failed while it was saving its state or rolling back: write `abandon w1` and `learn s1` above this line",
        "abandon w1\nlearn s1\nrestart s1\n",
    ),
];
