//! A store of which one call fails, beside a plain one: each call of a fixed list fails in its turn.

use crate::beside::EMPTY;
use crate::scripted::{CALLS, Call, make, parted};
use kt_ckpt::Ckpt;
use kt_store::{CkptStore, FaultStore, MemStore, StoreError};
use std::alloc::Global;
use std::process::Abort;
use std::test::*;

/// What is known of the two stores at any time: the one has failed so often, and memory was never refused.
fn assert_counts(rt: &impl Abort, store: &FaultStore<MemStore>, faults: u64) {
    assert_eq!(rt; store.faults(), faults);
    assert_eq!(rt; store.has_failed(), faults == 1);
    assert_eq!(rt; store.wants(), 0);
}

/// Makes the call of both, and once more of the one of which it fails. It answers whether it does.
fn made_of_both(
    rt: &impl Abort,
    alloc: Global,
    store: &mut FaultStore<MemStore>,
    plain: &mut MemStore,
    call: Call,
    ckpt: &Ckpt,
) -> bool {
    let mut answer = make(store, alloc, call, ckpt);
    let fails = answer == Err(StoreError::Device);
    if fails {
        assert_counts(rt, store, 1);
        let part = parted(store, plain, alloc, ckpt);
        assert!(rt; part.is_none(), "after {call:?}: {part:?}");
        answer = make(store, alloc, call, ckpt);
    }
    let plain_answer = make(plain, alloc, call, ckpt);
    assert!(rt; answer.is_ok(), "{call:?}: {answer:?}");
    assert!(rt;
        answer == plain_answer,
        "{call:?}: {answer:?}, {plain_answer:?}"
    );
    fails
}

/// Makes all calls of both stores. It answers the number of the one that fails, 0 where none does.
fn failed_of(rt: &impl Abort, alloc: Global, at: u64, ckpt: &Ckpt) -> u64 {
    let mut plain = MemStore::new(alloc);
    let mut store = FaultStore::new(MemStore::new(alloc), at);
    let mut failed = 0u64;
    let mut number = 0u64;
    for call in CALLS {
        number = number.wrapping_add(1);
        if made_of_both(rt, alloc, &mut store, &mut plain, call, ckpt) {
            failed = number;
        }
        assert_counts(rt, &store, (failed > 0) as u64);
    }
    let part = parted(&mut store.into_inner(), &mut plain, alloc, ckpt);
    assert!(rt; part.is_none(), "{part:?}");
    failed
}

#[test]
fn each_call_fails_in_turn(rt: HostRuntime) -> Result<(), Fail> {
    let alloc = rt.alloc();
    let ckpt = Ckpt::decode(alloc, &EMPTY)?;
    let mut at = 1u64;
    while failed_of(&rt, alloc, at, &ckpt) == at {
        at = at.wrapping_add(1);
    }
    assert_eq!(rt; at, CALLS.len() as u64 + 1);
    // One more than there are calls fails none of them; nor do 0 and the greatest number.
    for at in [at, 0, u64::MAX] {
        assert_eq!(rt; failed_of(&rt, alloc, at, &ckpt), 0);
    }
    Ok(())
}

#[test]
fn the_store_below_is_not_called(rt: HostRuntime) -> Result<(), Fail> {
    let alloc = rt.alloc();
    let ckpt = Ckpt::decode(alloc, &EMPTY)?;
    for at in 1..=CALLS.len() as u64 {
        // That below counts the calls that reach it, and so fails when the call is made again.
        let mut store = FaultStore::new(FaultStore::new(MemStore::new(alloc), at), at);
        let mut number = 0u64;
        for call in CALLS {
            number = number.wrapping_add(1);
            if number == at {
                assert_eq!(rt;
                    make(&mut store, alloc, call, &ckpt),
                    Err(StoreError::Device)
                );
                assert_eq!(rt; store.faults(), 1);
                assert_eq!(rt;
                    make(&mut store, alloc, call, &ckpt),
                    Err(StoreError::Device)
                );
                assert_eq!(rt; store.faults(), 2);
            }
            let answer = make(&mut store, alloc, call, &ckpt);
            assert!(rt; answer.is_ok(), "{call:?}: {answer:?}");
        }
        assert_eq!(rt; store.faults(), 2);
    }
    Ok(())
}
