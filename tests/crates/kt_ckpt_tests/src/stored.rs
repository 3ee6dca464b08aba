//! The bytes of the two checkpoints that a check of a worker and a shard leaves, worked out by hand.

/// The first worker: a log of two acts, one neighbour with all labels `(1, 1)`, the next command is the second, the
/// last request has the number 1 and is answered, the last answer was not none, and there are no variables. It issued
/// `out ("a", 1)` and accepted the answer to it, which is the second act of the first shard.
pub const FIRST_WORKER: [u8; 122] = [
    0x4b, 0x54, 0x43, 0x50, 2, // magic, version
    1, 1, // the first worker
    0, 0, 0, 0, 0, 0, 0, 2, // log length
    1, // one neighbour
    0, 0, 0, 0, 0, 0, 0, 1, 0, 0, 0, 0, 0, 0, 0, 1, // sent
    0, 0, 0, 0, 0, 0, 0, 1, 0, 0, 0, 0, 0, 0, 0, 1, // received
    0, 1, // the next command
    0, 0, 0, 0, 0, 0, 0, 1, // last number
    0, // the last answer was not none
    0, // nothing is unanswered
    0, // no variables
    1, 1, 0, // it issued a request of its own, and heard nothing for it:
    0, 0, 0, 0, 0, 0, 0, 1, // request 1
    1, 2, 2, 1, 0x61, 1, 0, 0, 0, 0, 0, 0, 0, 1, // out ("a", 1)
    6, 1, 1, // it accepted, to its own request, what it heard:
    2, 1, 0, 0, 0, 0, 0, 0, 0, 2, // the second act of the first shard
    0, 0, 0, 0, 0, 0, 0, 1, // request 1
    1, 2, 2, 1, 0x61, 1, 0, 0, 0, 0, 0, 0, 0, 1, // out ("a", 1)
    0, // done
];

/// The first shard: a log of two acts, one neighbour with all labels `(1, 1)`, the tuple `("a", 1)`, nobody
/// waits, and for the first worker the first request is kept: `out ("a", 1)`, done. It heard this request, the first
/// act of the first worker, and served it.
pub const SHARD: [u8; 162] = [
    0x4b, 0x54, 0x43, 0x50, 2, // magic, version
    2, 1, // the first shard
    0, 0, 0, 0, 0, 0, 0, 2, // log length
    1, // one neighbour
    0, 0, 0, 0, 0, 0, 0, 1, 0, 0, 0, 0, 0, 0, 0, 1, // sent
    0, 0, 0, 0, 0, 0, 0, 1, 0, 0, 0, 0, 0, 0, 0, 1, // received
    0, 0, 0, 1, // one tuple
    2, 2, 1, 0x61, 1, 0, 0, 0, 0, 0, 0, 0, 1, // ("a", 1)
    0, // nobody waits
    1, // one answer is kept
    1, 0, 0, 0, 0, 0, 0, 0, 1, // for the first worker, request 1
    1, 2, 2, 1, 0x61, 1, 0, 0, 0, 0, 0, 0, 0, 1, // out ("a", 1)
    0, // done
    3, 1, 1, // it heard a request of the first worker:
    1, 1, 0, 0, 0, 0, 0, 0, 0, 1, // the first act of the first worker
    0, 0, 0, 0, 0, 0, 0, 1, // request 1
    1, 2, 2, 1, 0x61, 1, 0, 0, 0, 0, 0, 0, 0, 1, // out ("a", 1)
    4, 1, 1, // it served a request of the first worker, which it had heard:
    1, 1, 0, 0, 0, 0, 0, 0, 0, 1, // the first act of the first worker
    0, 0, 0, 0, 0, 0, 0, 1, // request 1
    1, 2, 2, 1, 0x61, 1, 0, 0, 0, 0, 0, 0, 0, 1, // out ("a", 1)
    0, // done
];

/// How many bytes of `FIRST_WORKER` and of `SHARD` stand before the acts: with the version 1 they are the checkpoint
/// in format 1.
pub const OLD_WORKER_LEN: usize = 61;
/// See `OLD_WORKER_LEN`.
pub const OLD_SHARD_LEN: usize = 91;
