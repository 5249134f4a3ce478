//! Times that are promised. Each is the least of a few, and is printed: `cargo test --release -- --nocapture`.

mod common;
use common::{least, World};
use std::time::Duration;

/// So many file systems have so many snapshots each: 65,536 in all, or 4,096 where nothing is optimized.
const SIDE: usize = if cfg!(debug_assertions) { 64 } else { 256 };

/// How much longer than promised a thing may take here, as other work goes on beside.
const BUSY: u32 = 4;

#[test]
fn a_list_of_snapshots_takes_under_a_second() {
    let world = World::with_pool();
    world.run("zfs create tank/a");
    // A command snapshots a file system once.
    for k in 1..SIDE {
        world.run(&format!("zfs create tank/a/f{k:03}"));
    }
    for k in 0..SIDE {
        world.run(&format!("zfs snapshot -r tank/a@s{k:03}"));
    }
    let mut count = 0;
    let time = least(3, || count = world.run("zfs list -H -t snapshot -o name -r tank").lines().count());
    assert_eq!(count, SIDE * SIDE);
    println!("zfs list of {count} snapshots: {} ms", time.as_millis());
    assert!(time < Duration::from_secs(1) * BUSY, "{time:?}");
    let time = least(3, || drop(world.run("zfs list -H -p -t snapshot -o name,used,creation,guid -r tank")));
    println!("with used, creation and guid: {} ms", time.as_millis());
    assert!(time < Duration::from_secs(1) * BUSY, "{time:?}");
}

#[test]
fn a_client_starts_in_under_ten_milliseconds() {
    let world = World::with_pool();
    let time = least(50, || drop(world.run("zfs list -H -o name tank")));
    println!("zfs list -H -o name tank: {:.1} ms", time.as_secs_f64() * 1000.0);
    assert!(time < Duration::from_millis(10) * BUSY, "{time:?}");
}
