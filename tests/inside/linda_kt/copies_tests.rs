//! A copy of the store in a file is opened, and the file stays as it is.
//! Cited by no other file of crates/.
use crate::copies::{ShowError, StoreCopy};
use crate::files::Files;
use crate::holding::Holds;
use kt_command::Shows;
use kt_sql::{SqlOpenError, SqlStore};
use kt_store::CkptStore;
use kt_tuple::NodeId;
use std::fs;
use std::test::Fail;

const SHARD: NodeId = NodeId::Shard(1);

/// Why no copy of the store at the path is opened; none where one is.
fn refusal(rt: &HostRuntime, path: &str) -> Option<ShowError> {
    Files::new(rt).open_copy(path).err()
}

/// Leaves what a program leaves that is killed: its last write stands in the log. Answers the nodes that a copy had
/// before it ended.
fn leave_behind(rt: &HostRuntime, path: &str) -> Result<Vec<NodeId>, Fail> {
    let mut store = SqlStore::open(rt, path)?;
    store.begin_restart(SHARD)?;
    nodes_in_copy(rt, path)
}

/// The nodes that have a row in a copy of the store.
fn nodes_in_copy(rt: &HostRuntime, path: &str) -> Result<Vec<NodeId>, Fail> {
    let mut store = Files::new(rt).open_copy(path)?.into_store();
    Ok(store.nodes(rt.alloc())?)
}

#[test]
fn a_copy_of_what_was_left_behind(rt: HostRuntime) -> Result<(), Fail> {
    // A folder that this test alone has, in which the file is made.
    let place = StoreCopy::make(&rt)?;
    let path = place.path();
    let while_open = leave_behind(&rt, path)?;
    assert_eq!(rt; while_open.as_slice(), [SHARD].as_slice());
    let log = format!(in rt.alloc(); "{path}-wal")?;
    let (file_before, log_before) = (fs::read(&rt, path)?, fs::read(&rt, log.as_str())?);
    assert!(rt; !log_before.is_empty());
    let nodes = nodes_in_copy(&rt, path)?;
    assert_eq!(rt; nodes.as_slice(), [SHARD].as_slice());
    let (file_after, log_after) = (fs::read(&rt, path)?, fs::read(&rt, log.as_str())?);
    assert!(rt; file_after == file_before && log_after == log_before);
    // The log may be missing, as where the store was put away.
    fs::remove_file(&rt, log.as_str())?;
    assert!(rt; nodes_in_copy(&rt, path)?.is_empty());
    assert!(rt; !fs::exists(&rt, log.as_str())?);
    place.remove(&rt);
    Ok(())
}

#[test]
fn what_is_no_store_is_not_copied(rt: HostRuntime) -> Result<(), Fail> {
    let place = StoreCopy::make(&rt)?;
    let path = place.path();
    assert_eq!(rt; refusal(&rt, path), Some(ShowError::Missing));
    assert!(rt; !fs::exists(&rt, path)?);
    assert_eq!(rt; refusal(&rt, ""), Some(ShowError::Missing));
    fs::write(&rt, path, b"no store")?;
    let refused = Some(ShowError::Open(SqlOpenError::Damaged));
    assert_eq!(rt; refusal(&rt, path), refused);
    let inside = format!(in rt.alloc(); "{path}/store")?;
    assert_eq!(rt; refusal(&rt, inside.as_str()), Some(ShowError::Missing));
    fs::remove_file(&rt, path)?;
    fs::create_dir(&rt, path)?;
    assert_eq!(rt; refusal(&rt, path), Some(ShowError::Folder));
    assert_eq!(rt; refusal(&rt, "/dev/null"), Some(ShowError::NotRegular));
    place.remove(&rt);
    Ok(())
}
