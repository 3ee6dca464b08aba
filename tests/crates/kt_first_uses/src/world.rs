//! A first use of kt_core.

use kt_core::{Step, World};
use kt_scene::{WorkKind, read_scene};
use kt_store::MemStore;
use kt_tuple::NodeId;
use std::alloc::Global;
use std::test::Fail;

/// Opens a world of one worker and one shard, and makes the three steps by which a tuple is put. It gives the number of
/// services that survive.
pub(crate) fn first_service(alloc: Global) -> Result<usize, Fail> {
    let (worker, shard, place) = (NodeId::Worker(1), NodeId::Shard(1), 0);
    let text = b"linda-kt 1\nshards 1\nworker\nout (7)\nfaults\nend\n";
    let scene = read_scene(alloc, text, WorkKind::Faults)?.scene;
    let world = World::open(alloc, scene, MemStore::new(alloc));
    let mut world = world.ok().ok_or("a world")?;
    world.step(alloc, Step::Issue { node: worker })?;
    world.step(
        alloc,
        Step::Deliver {
            from: worker,
            to: shard,
        },
    )?;
    world.step(
        alloc,
        Step::Serve {
            shard,
            worker,
            place,
        },
    )?;
    Ok(world.history().survivors(alloc)?.len())
}
