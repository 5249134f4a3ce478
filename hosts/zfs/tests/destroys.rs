//! Destroys of file systems that are clones of each other. The texts are OpenZFS's.

mod common;
use common::World;

/// A pool with these in it.
fn world(lines: &str) -> World {
    let world = World::with_pool();
    world.run(lines);
    world
}

/// `tank/p` is a clone of `tank/p/c@s`.
const CLONE_OF_ITS_OWN: &str = "zfs create tank/c
    zfs snapshot tank/c@r
    zfs snapshot tank/c@s
    zfs clone tank/c@s tank/p
    zfs rename tank/c tank/p/c
    zfs create tank/p/b
    zfs yuz-write tank/p/c 0 0 1 61";

const RECURSIVE: &str = "cannot determine dependent datasets: recursive dependency at 'tank/p'\n";

#[test]
fn a_file_system_that_depends_on_itself_is_refused() {
    let world = world(CLONE_OF_ITS_OWN);
    let before = world.state();
    let children = "cannot destroy 'tank/p': filesystem has children\n\
        use '-r' to destroy the following datasets:\ntank/p/b\ntank/p/c@r\ntank/p/c@s\ntank/p/c\n";
    let below = "cannot destroy 'tank/p/c': filesystem has dependent clones\n\
        use '-R' to destroy the following datasets:\ntank/p/b\ntank/p\n";
    let snapshot = "cannot destroy 'tank/p/c@s': snapshot has dependent clones\n\
        use '-R' to destroy the following datasets:\ntank/p/b\ntank/p/c@r\ntank/p/c@s\ntank/p/c\ntank/p\n";
    let at_c = RECURSIVE.replace("tank/p", "tank/p/c");
    let rollback = format!("{RECURSIVE}cannot destroy 'tank/p/c@s': dataset already exists\n");
    for (line, out, err) in [
        ("zfs destroy tank/p", "", children),
        ("zfs destroy -nv tank/p", "", children),
        ("zfs destroy -r tank/p", "", RECURSIVE),
        ("zfs destroy -R tank/p", "", RECURSIVE),
        ("zfs destroy -vr tank/p", "will destroy tank/p/b\nwill destroy tank/p/c@r\n", RECURSIVE),
        ("zfs destroy -nvR tank/p", "would destroy tank/p/b\nwould destroy tank/p/c@r\n", RECURSIVE),
        ("zfs destroy -npr tank/p", "destroy\ttank/p/b\ndestroy\ttank/p/c@r\n", RECURSIVE),
        ("zfs destroy -r tank/p/c", "", below),
        ("zfs destroy -R tank/p/c", "", &at_c),
        ("zfs destroy tank/p/c@s", "", snapshot),
        ("zfs destroy -v tank/p/c@s", "would destroy tank/p/c@s\n", snapshot),
        ("zfs destroy -R tank/p/c@s", "", RECURSIVE),
        ("zfs rollback -R tank/p/c@r", "", &rollback),
    ] {
        let said = world.line(line);
        assert_eq!((said.status, &*said.out, &*said.err), (1, out, err), "{line}");
        assert_eq!(world.state(), before, "{line}");
    }
    world.run("zfs destroy tank/p/b
        zfs promote tank/p
        zfs destroy -r tank/p");
    assert_eq!(world.run("zfs list -H -o name"), "tank\n");
}

#[test]
fn a_clone_beside_its_origin_is_told_as_often_as_it_is_met() {
    let world = world("zfs create -p tank/p/b
        zfs snapshot tank/p/b@s
        zfs clone tank/p/b@s tank/p/c");
    let met = ["tank/p/c", "tank/p/b@s", "tank/p/b", "tank/p/c"];
    let children = "cannot destroy 'tank/p': filesystem has children\nuse '-r' to destroy the following datasets:\n";
    assert_eq!(world.line("zfs destroy tank/p").err, format!("{children}{}\n", met.join("\n")));
    let told = |word: &str, met: &[&str]| met.iter().chain(&["tank/p"]).map(|name| format!("{word} destroy {name}\n")).collect::<String>();
    assert_eq!(world.run("zfs destroy -nvr tank/p"), told("would", &met));
    assert_eq!(world.run("zfs destroy -vr tank/p"), told("will", &met[..3]));
    assert_eq!(world.run("zfs list -H -o name"), "tank\n");
}

#[test]
fn clones_go_before_their_origins() {
    let lines = "zfs create -p tank/b/b
        zfs snapshot tank/b/b@s
        zfs clone tank/b/b@s tank/c
        zfs create tank/c/d
        zfs snapshot tank/c/d@t
        zfs clone tank/c/d@t tank/a";
    let order = ["tank/a", "tank/c/d@t", "tank/c/d", "tank/c"];
    let told = |names: &[&str]| names.iter().map(|name| format!("will destroy {name}\n")).collect::<String>();
    let all = [&order[..], &["tank/b/b@s", "tank/b/b", "tank/b", "tank"]].concat();
    assert_eq!(world(lines).run("zfs destroy -vr tank"), told(&all));
    let world = world(lines);
    assert_eq!(world.run("zfs destroy -vR tank/b/b@s"), format!("will destroy tank/b/b@s\nwill reclaim 0B\n{}", told(&order)));
    assert_eq!(world.run("zfs list -H -o name -t all"), "tank\ntank/b\ntank/b/b\n");
}

#[test]
fn snapshots_are_refused_as_they_are_named_and_told_by_their_age() {
    let world = world("zfs create tank/a
        zfs snapshot tank/a@1
        zfs snapshot tank/a@2
        zfs clone tank/a@1 tank/b
        zfs clone tank/a@2 tank/c");
    let refused = |snapshot: &str, clone: &str| {
        format!("cannot destroy 'tank/a@{snapshot}': snapshot has dependent clones\nuse '-R' to destroy the following datasets:\ntank/{clone}\n")
    };
    let said = world.line("zfs destroy -v tank/a@2,%1,2");
    assert_eq!(said.out, "would destroy tank/a@1\nwould destroy tank/a@2\n");
    assert_eq!(said.err, refused("2", "c") + &refused("1", "b") + &refused("2", "c"));
}
