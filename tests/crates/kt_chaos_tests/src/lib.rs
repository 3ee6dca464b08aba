//! The lines of one seed.
#![tactic(auto)]

use kt_chaos::*;
use kt_scenario::{Fault, FaultKind, Faults, Scene};
use kt_text::{Scenario, WorkKind, read_scene};
use kt_tuple::NodeId;
use std::alloc::Global;
use std::test::Fail;

/// A scene of one worker and one shard.
fn small_scene(alloc: Global) -> Result<Scene, Fail> {
    let text = b"linda-kt 1\nshards 1\nworker\nout (1)\nfaults\nend\n";
    match read_scene(alloc, text, WorkKind::Faults) {
        Ok(Scenario { scene, .. }) => Ok(scene),
        Err(_) => Err(Fail::from("no scene")),
    }
}

#[test]
fn a_seed_gives_its_lines(rt: HostRuntime) -> Result<(), Fail> {
    let scene = small_scene(rt.alloc())?;
    let mut faults = Faults::new(rt.alloc());
    push_random_faults(&mut faults, &scene, Chaos { count: 3, seed: 7 })?;
    let node = NodeId::Worker(1);
    let wanted = [
        (FaultKind::Fail, 5),
        (FaultKind::Check, 14),
        (FaultKind::Check, 12),
    ];
    assert_eq!(rt; faults.lines().len(), wanted.len());
    for (line, (kind, after)) in faults.lines().iter().zip(wanted) {
        assert_eq!(rt; line.fault, Fault { kind, node, after });
        assert!(rt; !line.is_marked);
    }
    Ok(())
}
