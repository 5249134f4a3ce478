//! A command that is refused has changed nothing, also where it is several requests of the layer. The texts are OpenZFS's.

mod common;
use common::World;

/// A pool with all kinds of things in it.
fn world() -> World {
    let world = World::with_pool();
    world.run("zfs create -p tank/a/b
        zfs create tank/c
        zfs create -V 8M tank/v
        zfs create -o quota=1M tank/q
        zfs set quota=100M my:note=n tank/a
        zfs yuz-write tank/a 0 0 4 61
        zfs snapshot -r tank/a@1
        zfs snapshot tank/a@2
        zfs snapshot tank/a@3
        zfs snapshot tank/a/b@other
        zfs hold keep tank/a@2
        zfs clone tank/a@3 tank/d
        zfs snapshot tank/d@9
        zfs bookmark tank/a@1 tank/a#m
        zfs create -p tank/r/a
        zfs snapshot tank/r/a@1
        zfs clone tank/r/a@1 tank/s
        zfs create tank/s/b
        zfs snapshot tank/s/b@1
        zfs clone tank/s/b@1 tank/t
        zfs rename tank/r tank/t/r");
    world
}

/// What is refused, with the first line that OpenZFS writes then.
const REFUSED: &[(&str, i32, &str)] = &[
    ("zfs create tank/a", 1, "cannot create 'tank/a': dataset already exists"),
    ("zfs create tank/x/y", 1, "cannot create 'tank/x/y': parent does not exist"),
    ("zfs create tank/v/y", 1, "cannot create 'tank/v/y': parent is not a filesystem"),
    ("zfs create none/y", 1, "cannot create 'none/y': no such pool 'none'"),
    ("zfs create -p -o recordsize=3 tank/x/y", 1, "cannot create 'tank/x/y': 'recordsize' must be power of 2 from 512B to 1M"),
    ("zfs create -p -o quota=1T -o reservation=1T tank/x/y", 1, "cannot create 'tank/x/y': out of space"),
    ("zfs create -p -V 8M tank/a", 1, "cannot create 'tank/a': dataset already exists"),
    ("zfs create -V 900T tank/big", 1, "cannot create 'tank/big': out of space"),
    ("zfs snapshot tank/a@1", 1, "cannot create snapshot 'tank/a@1': dataset already exists"),
    ("zfs snapshot tank/c@new tank/a@1", 1, "cannot create snapshot 'tank/a@1': dataset already exists"),
    ("zfs snapshot -r tank/a@other", 1, "cannot create snapshot 'tank/a/b@other': dataset already exists"),
    ("zfs destroy tank/a", 1, "cannot destroy 'tank/a': filesystem has children"),
    ("zfs destroy -r tank/a", 1, "cannot destroy 'tank/a': filesystem has dependent clones"),
    ("zfs destroy tank/a@3", 1, "cannot destroy 'tank/a@3': snapshot has dependent clones"),
    ("zfs destroy tank/a@2", 1, "cannot destroy snapshot tank/a@2: dataset is busy"),
    ("zfs destroy tank/a@1,2", 1, "cannot destroy snapshot tank/a@2: dataset is busy"),
    ("zfs destroy -R tank/a@1%3", 1, "cannot destroy snapshot tank/a@2: dataset is busy"),
    ("zfs destroy tank/a@nope", 1, "could not find any snapshots to destroy; check snapshot names."),
    ("zfs destroy tank/a#nope", 1, "bookmark 'tank/a#nope' does not exist."),
    ("zfs destroy -R tank/t", 1, "cannot determine dependent datasets: recursive dependency at 'tank/t'"),
    ("zfs destroy tank", 1, "cannot destroy 'tank': operation does not apply to pools"),
    ("zfs rollback tank/a@1", 1, "cannot rollback to 'tank/a@1': more recent snapshots or bookmarks exist"),
    ("zfs rollback -r tank/a@1", 1, "cannot rollback to 'tank/a@1': clones of previous snapshots exist"),
    ("zfs clone tank/a@1 tank/c", 1, "cannot create 'tank/c': dataset already exists"),
    ("zfs clone -p -o volsize=1M tank/a@1 tank/x/y", 1, "cannot create 'tank/x/y': 'volsize' does not apply to datasets of this type"),
    ("zfs clone tank/a@nope tank/x", 1, "cannot open 'tank/a@nope': dataset does not exist"),
    ("zfs promote tank/a", 1, "cannot promote 'tank/a': not a cloned filesystem"),
    ("zfs rename tank/a tank/c", 1, "cannot rename 'tank/a': dataset already exists"),
    ("zfs rename tank/a@1 tank/a@2", 1, "cannot rename 'tank/a@1': dataset already exists"),
    ("zfs rename -r tank/a@1 tank/a@other", 1, "cannot rename 'tank/a@1': a child dataset already has a snapshot with the new name"),
    ("zfs rename tank/a tank/a/x", 1, "cannot rename to 'tank/a/x': New dataset name cannot be a descendant of current dataset name"),
    ("zfs rename tank/a tank/x/a", 1, "cannot create 'tank/x/a': parent does not exist"),
    ("zfs rename tank/v tank/q/v", 1, "cannot rename 'tank/v': out of space"),
    ("zfs rename -p tank/v tank/q/x/y/v", 1, "cannot rename 'tank/v': out of space"),
    ("zfs rename -p tank/a tank/a/x/y", 1, "cannot rename to 'tank/a/x/y': New dataset name cannot be a descendant of current dataset name"),
    ("zfs rename -p tank/a tank/v/x/y", 1, "cannot create 'tank/v/x/y': parent is not a filesystem"),
    ("zfs bookmark tank/a@1 tank/a#m", 1, "cannot create bookmark 'tank/a#m': bookmark exists"),
    ("zfs hold keep tank/a@2", 1, "cannot hold snapshot 'tank/a@2': tag already exists on this dataset"),
    ("zfs hold -r keep tank/a@nope", 1, "cannot hold snapshot 'tank/a@nope': dataset does not exist"),
    ("zfs release nope tank/a@2", 1, "cannot release hold from snapshot 'tank/a@2': no such tag on this dataset"),
    ("zfs set compression=maybe tank/a", 1, "cannot set property for 'tank/a': 'compression' must be one of 'on | off | lzjb | gzip | gzip-[1-9] | zle | lz4 | zstd | zstd-[1-19] | zstd-fast | zstd-fast-[1-10,20,30,40,50,60,70,80,90,100,500,1000]'"),
    ("zfs set used=1 tank/a", 1, "cannot set property for 'tank/a': 'used' is readonly"),
    ("zfs set quota=512 tank/a", 1, "cannot set property for 'tank/a': size is less than current used or reserved space"),
    ("zfs set atime=off tank/v", 1, "cannot set property for 'tank/v': 'atime' does not apply to datasets of this type"),
    ("zfs set nothing=1 tank/a", 1, "cannot set property for 'tank/a': invalid property 'nothing'"),
    ("zfs inherit quota tank/a", 1, "'quota' property cannot be inherited"),
    ("zfs send tank/a", 1, ""),
    ("zfs send -i tank/a@3 tank/a@1", 1, "warning: cannot send 'tank/a@1': not an earlier snapshot from the same fs"),
    ("zfs receive tank/x", 1, ""),
    ("zfs receive -A tank/a", 1, "'tank/a' does not have any resumable receive state to abort"),
    ("zfs get nothing tank", 2, "bad property list: invalid property 'nothing'"),
    ("zfs list nowhere", 1, "cannot open 'nowhere': dataset does not exist"),
    ("zfs create", 2, "missing filesystem argument"),
    ("zfs snapshot -q tank/a@x", 2, "invalid option 'q'"),
    ("zfs list -o name,,used tank", 2, "bad property list: empty property name"),
    ("zfs list -t bookmark tank/a#nope", 1, "cannot open 'tank/a#nope': no such pool or dataset"),
    ("zfs create -o compression=maybe tank/a", 1, "cannot create 'tank/a': dataset already exists"),
    ("zfs create -o compression=maybe tank/x/y", 1, "cannot create 'tank/x/y': parent does not exist"),
    ("zfs send -I tank/c@1 tank/a@2", 2, "incremental source must be in same filesystem"),
    ("zfs send -I @1/x tank/a@2", 2, "invalid incremental source"),
    ("zfs send -I @ tank/a@2", 1, "cannot send 'tank/a': zero-length incremental source"),
    ("zfs receive -x a=b tank/x", 2, "invalid character '=' in property argument"),
    ("zfs receive -o compression=on -x compression tank/x", 2, "property 'compression' specified multiple times"),
    ("zfs receive -o used=1 tank/x", 1, "cannot receive: invalid property 'used'"),
    ("zfs receive -o compression=maybe tank/x", 1, "cannot receive: failed to read from stream"),
    ("zfs diff tank/a", 1, "Badly formed snapshot name tank/a: missing '@' delimiter in snapshot name"),
    ("zfs diff tank/a@1 tank/c", 1, "Not an earlier snapshot from the same fs: invalid name"),
    ("zfs diff tank/a@2 tank/a@1", 1, "Unable to obtain diffs: Not an earlier snapshot from the same fs"),
    ("zfs unmount /nowhere/at/all", 1, "cannot open '/nowhere/at/all': No such file or directory"),
    ("zfs unshare tank/c", 1, "cannot unshare 'tank/c': legacy share"),
    ("zfs upgrade -V 9 tank", 2, "invalid version 9"),
    ("zfs load-key tank/a", 255, "Key load error: Encryption feature not enabled."),
    ("zfs create -o encryption=on tank/x", 1, "cannot create 'tank/x': Encryption feature not enabled."),
    ("zfs wait", 2, "missing 'filesystem' argument"),
    ("zfs set keylocation=file:x tank/a", 1, "cannot set property for 'tank/a': invalid keylocation"),
    ("zpool create tank /nowhere/disk", 1, "cannot resolve path '/nowhere/disk'"),
    ("zpool create other disk", 1, "cannot open 'disk': no such device in /dev"),
    ("zpool create other mirror /etc/passwd", 1, "invalid vdev specification: mirror requires at least 2 devices"),
    ("zpool create a/b /etc/passwd", 1, "cannot create 'a/b': invalid character '/' in pool name"),
    ("zpool create 1x /etc/passwd", 1, "cannot create '1x': name must begin with a letter"),
    ("zpool create -o nope=1 other /etc/passwd", 1, "property 'nope' is not a valid pool property"),
    ("zpool create -O nope=1 other /etc/passwd", 1, "property 'nope' is not a valid filesystem property"),
    ("zpool create -m here other /etc/passwd", 1, "invalid mountpoint 'here': must be an absolute path, 'legacy', or 'none'"),
    ("zpool create -o ashift=3 other /etc/passwd", 1, "invalid 'ashift=3' property: only values between 9 and 16 are allowed."),
    ("zpool create other /etc/passwd", 1, "cannot create 'other': one or more devices is less than the minimum size (64M)"),
    ("zpool destroy tank/a", 1, "cannot open 'tank/a': invalid character '/' in pool name"),
    ("zpool set readonly=on tank", 1, "cannot set property for 'tank': property 'readonly' can only be set at import time"),
    ("zpool set bootfs=none/x tank", 1, "cannot set property for 'tank': 'none/x' is an invalid name"),
    ("zpool scrub -s tank", 1, "cannot cancel scrubbing tank: there is no active scrub"),
    ("zpool clear tank disk", 1, "cannot clear errors for disk: no such device in pool"),
    ("zpool wait -t nope tank", 2, "invalid activity 'nope'"),
    ("zpool attach tank disk", 2, "missing <new_device> specification"),
    ("zpool import -a tank", 2, "too many arguments"),
    ("zpool destroy nowhere", 1, "cannot open 'nowhere': no such pool"),
    ("zpool import nowhere", 1, "cannot import 'nowhere': no such pool available"),
];

#[test]
fn a_refused_command_changes_nothing() {
    let world = world();
    let before = world.state();
    assert!(before.lines().count() > 200, "{before}");
    for &(line, status, first) in REFUSED {
        let said = world.line(line);
        assert_eq!(said.status, status, "{line}: {said:?}");
        assert!(!said.err.is_empty(), "{line} says nothing");
        if !first.is_empty() {
            assert_eq!(said.err.lines().next(), Some(first), "{line}");
        }
        assert_eq!(world.state(), before, "{line}");
    }
}

#[test]
fn each_snapshot_that_stands_in_the_way_is_told() {
    let world = world();
    let said = world.line("zfs snapshot tank/c@new tank/a@1 tank/a/b@1");
    let told = ["tank/a@1", "tank/a/b@1"].map(|name| format!("cannot create snapshot '{name}': dataset already exists\n"));
    assert_eq!(said.err, format!("{}no snapshots were created\n", told.concat()));
}

#[test]
fn a_device_is_of_one_pool() {
    let world = world();
    let file = world.folder.join("tank.img").to_str().unwrap().to_owned();
    let said = world.say("zpool", ["create", "other", &file]);
    let head = "invalid vdev specification\nuse '-f' to override the following errors:\n";
    assert_eq!((said.status, said.err), (1, format!("{head}{file} is part of active pool 'tank'\n")));
}

#[test]
fn a_refused_stream_changes_nothing() {
    let world = world();
    world.pool("back");
    assert_eq!(world.receive(&world.stream(&["tank/a@1"]), &["back/a"]).status, 0);
    let step = world.stream(&["-i", "@1", "tank/a@2"]);
    let full = world.stream(&["tank/a@2"]);
    world.run("zfs yuz-write back/a 0 0 1 7a");
    let before = world.state();
    let mut spoilt = full.clone();
    let middle = spoilt.len() / 2;
    spoilt[middle] ^= 1;
    let refused: [(&str, &[u8], &[&str]); 9] = [
        ("over what was modified", &step, &["back/a"]),
        ("where it exists", &full, &["back/a"]),
        ("where the source isn't", &step, &["back/b"]),
        ("below nothing", &full, &["back/x/y"]),
        ("cut", &full[..full.len() / 2], &["back/b"]),
        ("cut in its end", &full[..full.len() - 7], &["back/b"]),
        ("spoilt", &spoilt, &["back/b"]),
        ("no stream", b"nothing of the kind", &["back/b"]),
        ("no pool", &full, &["none/b"]),
    ];
    for (what, stream, words) in refused {
        let said = world.receive(stream, words);
        assert_eq!(said.status, 1, "{what}: {said:?}");
        assert!(said.err.starts_with("cannot ") || said.err.starts_with("warning"), "{what}: {said:?}");
        assert_eq!(world.state(), before, "{what}");
    }
    let texts: [(&[u8], &str, &str); 5] = [
        (&full, "none", "cannot receive new filesystem stream: destination 'none' does not exist\n"),
        (&step, "none@1", "cannot receive incremental stream: destination 'none' does not exist\n"),
        (&step, "none/b", "cannot receive incremental stream: destination 'none/b' does not exist\n"),
        (&step, "none/@b", "cannot receive: invalid name\n"),
        (&full, "none/b", "cannot open 'none': dataset does not exist\ncannot receive new filesystem stream: unable to restore to destination\n"),
    ];
    for (stream, target, text) in texts {
        assert_eq!(world.receive(stream, &[target]).err, text, "{target}");
    }
}
