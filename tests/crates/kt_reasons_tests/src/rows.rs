//! Refused steps of requests: those before, the step, what is said of it, and what that says to write.

/// The steps before the one that is refused, that one, what is said, and the steps that are not refused in its place.
pub(crate) type Row = (&'static str, &'static str, &'static str, &'static str);

/// Requests, at one shard.
pub(crate) static OF_ONE_SHARD: &[Row] = &[
    (
        "",
        "issue w3",
        "there is no w3: this scenario has w1 to w2 and s1, so write one of them in its place",
        "issue w2\n",
    ),
    (
        "",
        "issue s1",
        "s1 is a shard, and only workers issue requests: write a worker here, as in `issue w1`",
        "issue w1\n",
    ),
    (
        "",
        "deliver w1 w1",
        "messages go between a worker and a shard, the sender stands first: write `deliver w1 s1`, below an `issue \
         w1` that sends one",
        "issue w1\ndeliver w1 s1\n",
    ),
    (
        "issue w2\n",
        "deliver w1 w2",
        "messages go between a worker and a shard, the sender stands first: write `deliver w2 s1`, for which one is \
         on its way",
        "deliver w2 s1\n",
    ),
    (
        "issue w1\ndeliver w1 s1\n",
        "serve w1 s1 0",
        "a shard serves a worker, so the shard stands first: write `serve s1 w1 0`",
        "serve s1 w1 0\n",
    ),
    (
        "issue w1\ndeliver w1 s1\n",
        "serve s1 s1 0",
        "a shard serves a worker: write the shard, the worker and the place, as in `serve s1 w1 0`",
        "serve s1 w1 0\n",
    ),
    (
        "issue w1\n",
        "serve s1 w1 0",
        "the request of w1 has not come to s1 yet: write `deliver w1 s1` above this line",
        "deliver w1 s1\nserve s1 w1 0\n",
    ),
    (
        "issue w1\n",
        "deliver s1 w1",
        "s1 has sent nothing to w1 that is still on its way: write `deliver w1 s1` and `serve s1 w1 0` above this \
         line",
        "deliver w1 s1\nserve s1 w1 0\ndeliver s1 w1\n",
    ),
    (
        "",
        "serve s1 w1 0",
        "w1 has asked nothing that is unanswered: write `issue w1` and `deliver w1 s1` above this line",
        "issue w1\ndeliver w1 s1\nserve s1 w1 0\n",
    ),
    (
        "",
        "deliver w1 s1",
        "w1 has sent nothing to s1 that is still on its way: write `issue w1` above this line",
        "issue w1\ndeliver w1 s1\n",
    ),
    (
        "",
        "deliver s1 w1",
        "s1 has sent nothing to w1 that is still on its way: write `issue w1` and `deliver w1 s1` above this line",
        "issue w1\ndeliver w1 s1\nserve s1 w1 0\ndeliver s1 w1\n",
    ),
    (
        "issue w1\ndeliver w1 s1\n",
        "deliver w1 s1",
        "w1 has sent nothing to s1 that is still on its way: take this line away; next comes `serve s1 w1 0`",
        "serve s1 w1 0\n",
    ),
    (
        "issue w1\ndeliver w1 s1\nserve s1 w1 0\n",
        "serve s1 w1 0",
        "w1 does not wait at s1 any more: take this line away; next comes `deliver s1 w1`",
        "deliver s1 w1\n",
    ),
    (
        "issue w2\ndeliver w2 s1\n",
        "serve s1 w2 1",
        "s1 has no tuple that matches the request of w2: take this line away, or let another worker put one first",
        "",
    ),
    (
        "issue w1\ndeliver w1 s1\n",
        "serve s1 w1 1",
        "s1 can serve w1 at place 0 alone: write `serve s1 w1 0`",
        "serve s1 w1 0\n",
    ),
    (
        "issue w1\n",
        "issue w1",
        "w1 still waits for the answer to request 1: write `deliver w1 s1`, `serve s1 w1 0` and `deliver s1 w1` \
         above this line\n  (`repeat w1` in place of this line sends request 1 once more)",
        "deliver w1 s1\nserve s1 w1 0\ndeliver s1 w1\nissue w1\n",
    ),
    (
        "issue w1\ndeliver w1 s1\nserve s1 w1 0\n",
        "issue w1",
        "w1 still waits for the answer to request 1: write `deliver s1 w1` above this line\n  (`repeat w1` in place \
         of this line sends request 1 once more)",
        "deliver s1 w1\nissue w1\n",
    ),
    (
        "issue w1\ndeliver w1 s1\nserve s1 w1 0\ndeliver s1 w1\nissue w1\ndeliver w1 s1\nserve s1 w1 0\ndeliver s1 \
         w1\n",
        "issue w1",
        "w1 has done all its commands: take this line away, or write one more below the last of them",
        "",
    ),
    (
        "issue w2\ndeliver w2 s1\n",
        "issue w2",
        "request 1 of w2 waits at s1, where no tuple matches it: let another worker put one first, or take this \
         line away",
        "",
    ),
    (
        "issue w1\ndeliver w1 s1\nserve s1 w1 0\ndeliver s1 w1\nissue w1\ndeliver w1 s1\nserve s1 w1 0\ndeliver s1 \
         w1\n",
        "deliver s1 w1",
        "s1 has sent nothing to w1 that is still on its way: take this line away",
        "",
    ),
    (
        "issue w1\ndeliver w1 s1\nserve s1 w1 0\ndeliver s1 w1\nissue w1\ndeliver w1 s1\nserve s1 w1 0\ndeliver s1 \
         w1\n",
        "serve s1 w1 0",
        "w1 does not wait at s1: take this line away",
        "",
    ),
    (
        "issue w2\n",
        "issue w2",
        "request 1 of w2 goes to s1, where no tuple matches it: let another worker put one first, or take this \
         line away",
        "",
    ),
    (
        "issue w2\n",
        "deliver s1 w2",
        "s1 has sent nothing to w2 that is still on its way: request 1 of w2 goes to s1, where no tuple matches it: \
         let another worker put one first, or take this line away",
        "",
    ),
    (
        "",
        "repeat w1",
        "w1 waits for no answer: take this line away, or write `issue w1` in its place",
        "issue w1\n",
    ),
    (
        "",
        "take w1",
        "w1 keeps no message back: take this line away; what is on its way arrives by `deliver`",
        "",
    ),
];

/// Requests, where there are two shards.
pub(crate) static OF_TWO_SHARDS: &[Row] = &[
    (
        "issue w1\n",
        "deliver w1 s1",
        "w1 has sent nothing to s1 that is still on its way: take this line away; next comes `deliver w1 s2`",
        "deliver w1 s2\n",
    ),
    (
        "issue w1\ndeliver w1 s2\n",
        "serve s1 w1 0",
        "the request of w1 goes to another shard: take this line away; next comes `serve s2 w1 0`",
        "serve s2 w1 0\n",
    ),
    (
        "",
        "serve s1 w1 0",
        "w1 has asked nothing that is unanswered: write `issue w1` above this line",
        "issue w1\n",
    ),
    (
        "",
        "deliver s1 w1",
        "s1 has sent nothing to w1 that is still on its way: write `issue w1` above this line",
        "issue w1\n",
    ),
    (
        "issue w1\nrepeat w1\n",
        "issue w1",
        "w1 still waits for the answer to request 1: write `deliver w1 s2`, `serve s2 w1 0` and `deliver s2 w1` \
         above this line\n  (`repeat w1` in place of this line sends request 1 once more)",
        "deliver w1 s2\nserve s2 w1 0\ndeliver s2 w1\nissue w1\n",
    ),
    (
        "issue w1\ndeliver w1 s2\nserve s2 w1 0\ndeliver s2 w1\nissue w1\ndeliver w1 s2\nserve s2 w1 0\ndeliver s2 \
         w1\nissue w1\ndeliver w1 s2\n",
        "serve s2 w1 2",
        "s2 has 2 tuples that match the request of w1: write `serve s2 w1 0` for the oldest, or a place up to 1",
        "serve s2 w1 1\n",
    ),
    (
        "fail w1\n",
        "issue w1",
        "w1 is down since it failed: write above this line `restart w1`, which asks all others to roll back,\n  \
         then `deliver w1 s1` and `deliver s1 w1`, the same for each other shard, and at last `decide w1`",
        "restart w1\ndeliver w1 s1\ndeliver s1 w1\ndeliver w1 s2\ndeliver s2 w1\ndecide w1\nissue w1\n",
    ),
    (
        "fail w1\nrestart w1\n",
        "decide w1",
        "w1 awaits the vote of s1, s2: write `deliver w1 s1` and `deliver s1 w1` above this line, the same for \
         each, and try again",
        "deliver w1 s1\ndeliver s1 w1\ndeliver w1 s2\ndeliver s2 w1\ndecide w1\n",
    ),
];
