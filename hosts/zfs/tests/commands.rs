//! What each command does, told by the commands that list.

mod common;
use common::{Said, World};

fn names(world: &World, of: &str) -> Vec<String> {
    world.line(&format!("zfs list -H -r -t all -o name {of}")).out.lines().map(str::to_owned).collect()
}

fn value(world: &World, property: &str, name: &str) -> String {
    world.done("zfs", ["get", "-Hp", "-o", "value", property, name]).trim_end().to_owned()
}

#[test]
fn file_systems_and_volumes_are_made_and_destroyed() {
    let world = World::with_pool();
    world.run("zfs create tank/a
        zfs create -p -o compression=lz4 -o my:note=x tank/b/c/d
        zfs create -V 10M tank/v");
    assert_eq!(names(&world, "tank"), ["tank", "tank/a", "tank/b", "tank/b/c", "tank/b/c/d", "tank/v"]);
    assert_eq!(value(&world, "compression", "tank/b/c/d"), "lz4");
    assert_eq!(value(&world, "compression", "tank/b/c"), "off");
    assert_eq!(value(&world, "my:note", "tank/b/c/d"), "x");
    assert_eq!(value(&world, "type", "tank/v"), "volume");
    assert_eq!(value(&world, "volsize", "tank/v"), "10485760");
    world.run("zfs destroy tank/a
        zfs destroy -r tank/b");
    assert_eq!(names(&world, "tank"), ["tank", "tank/v"]);
}

#[test]
fn a_snapshot_keeps_what_was_there() {
    let world = World::with_pool();
    world.run("zfs create tank/a
        zfs yuz-write tank/a 0 0 1 61
        zfs snapshot -o my:note=first tank/a@one
        zfs yuz-write tank/a 0 0 1 62");
    assert!(world.run("zfs yuz-read tank/a@one 0 0").starts_with("6100"));
    assert!(world.run("zfs yuz-read tank/a 0 0").starts_with("6200"));
    assert_eq!(value(&world, "my:note", "tank/a@one"), "first");
    world.run("zfs rollback tank/a@one");
    assert!(world.run("zfs yuz-read tank/a 0 0").starts_with("6100"));
    world.run("zfs rename tank/a@one @two
        zfs destroy tank/a@two");
    assert_eq!(names(&world, "tank/a"), ["tank/a"]);
}

#[test]
fn snapshots_of_one_command_are_one_moment() {
    let world = World::with_pool();
    world.run("zfs create -p tank/a/b
        zfs create tank/c
        zfs snapshot -r tank/a@x tank/c@x");
    let groups: Vec<String> = ["tank/a@x", "tank/a/b@x", "tank/c@x"].iter().map(|name| value(&world, "createtxg", name)).collect();
    assert!(groups.iter().all(|group| *group == groups[0]), "{groups:?}");
}

#[test]
fn a_range_of_snapshots_is_destroyed() {
    let world = World::with_pool();
    world.run("zfs create tank/a");
    for k in 1..=6 {
        world.run(&format!("zfs snapshot tank/a@{k}"));
    }
    assert_eq!(world.run("zfs destroy -nvp tank/a@2%4,6").lines().filter(|line| line.starts_with("destroy\t")).count(), 4);
    world.run("zfs destroy tank/a@2%4,6");
    assert_eq!(names(&world, "tank/a"), ["tank/a", "tank/a@1", "tank/a@5"]);
}

#[test]
fn several_snapshots_go_together_or_not_at_all() {
    let world = World::with_pool();
    world.run("zfs create -p tank/a/b
        zfs snapshot -r tank/a@1
        zfs snapshot -r tank/a@2
        zfs snapshot -r tank/a@3
        zfs snapshot tank/a@4
        zfs hold keep tank/a/b@3");
    let all = names(&world, "tank/a");
    let refused = |line: &str, held: &[&str]| {
        let err = held.iter().map(|name| format!("cannot destroy snapshot {name}: dataset is busy\n")).collect();
        assert_eq!(world.line(line), Said { status: 1, out: String::new(), err }, "{line}");
        assert_eq!(names(&world, "tank/a"), all);
    };
    refused("zfs destroy -r tank/a@1%3", &["tank/a/b@3"]);
    world.run("zfs hold keep tank/a@2");
    refused("zfs destroy -r tank/a@%", &["tank/a@2", "tank/a/b@3"]);
    refused("zfs destroy tank/a@4,2,1", &["tank/a@2"]);
    world.run("zfs destroy -r -d tank/a@1%3,none");
    assert_eq!(names(&world, "tank/a"), ["tank/a", "tank/a@2", "tank/a@4", "tank/a/b", "tank/a/b@3"]);
    world.run("zfs release keep tank/a@2
        zfs release keep tank/a/b@3
        zfs snapshot tank@r
        zfs snapshot tank@s
        zfs destroy -r tank");
    assert_eq!(names(&world, "tank"), ["tank"]);
}

#[test]
fn a_clone_is_promoted_over_its_origin() {
    let world = World::with_pool();
    world.run("zfs create tank/a
        zfs snapshot tank/a@s
        zfs clone -o my:note=c tank/a@s tank/c");
    assert_eq!(value(&world, "origin", "tank/c"), "tank/a@s");
    assert_eq!(value(&world, "clones", "tank/a@s"), "tank/c");
    world.run("zfs promote tank/c");
    assert_eq!(value(&world, "origin", "tank/a"), "tank/c@s");
    assert_eq!(value(&world, "origin", "tank/c"), "-");
    world.run("zfs destroy -R tank/c@s");
    assert_eq!(names(&world, "tank"), ["tank", "tank/c"]);
}

#[test]
fn a_held_snapshot_goes_with_its_last_hold() {
    let world = World::with_pool();
    world.run("zfs create tank/a
        zfs snapshot tank/a@s
        zfs hold keep tank/a@s
        zfs hold also tank/a@s");
    assert_eq!(value(&world, "userrefs", "tank/a@s"), "2");
    assert_eq!(world.run("zfs holds -H tank/a@s").lines().count(), 2);
    world.run("zfs destroy -d tank/a@s
        zfs release keep tank/a@s");
    assert_eq!(value(&world, "defer_destroy", "tank/a@s"), "on");
    world.run("zfs release also tank/a@s");
    assert_eq!(names(&world, "tank/a"), ["tank/a"]);
}

#[test]
fn properties_are_inherited_set_and_cleared() {
    let world = World::with_pool();
    world.run("zfs create -p tank/a/b
        zfs set compression=gzip my:note=up tank/a");
    let told = |source: &str| world.done("zfs", ["get", "-H", "-o", "value,source", "compression,my:note", source]);
    assert_eq!(told("tank/a/b"), "gzip\tinherited from tank/a\nup\tinherited from tank/a\n");
    world.run("zfs set compression=lz4 tank/a/b");
    assert_eq!(told("tank/a/b"), "lz4\tlocal\nup\tinherited from tank/a\n");
    world.run("zfs inherit compression tank/a/b
        zfs inherit -r my:note tank/a");
    assert_eq!(told("tank/a/b"), "gzip\tinherited from tank/a\n-\t-\n");
    world.run("zfs set quota=1000001 reservation=4097 tank/a");
    assert_eq!((value(&world, "quota", "tank/a"), value(&world, "reservation", "tank/a")), ("1000001".into(), "4097".into()));
}

#[test]
fn a_renamed_file_system_takes_what_is_below() {
    let world = World::with_pool();
    world.run("zfs create -p tank/a/b
        zfs set my:note=x tank/a/b
        zfs snapshot -r tank/a@s
        zfs rename tank/a tank/z
        zfs rename -r tank/z@s @t");
    assert_eq!(names(&world, "tank"), ["tank", "tank/z", "tank/z@t", "tank/z/b", "tank/z/b@t"]);
    assert_eq!(value(&world, "my:note", "tank/z/b"), "x");
    world.run("zfs create tank/a
        zfs snapshot tank/a@s");
    assert_eq!(names(&world, "tank/a"), ["tank/a", "tank/a@s"]);
}

#[test]
fn a_renamed_file_system_may_get_another_parent() {
    let world = World::with_pool();
    world.run("zfs create -p tank/a/b
        zfs create tank/c
        zfs yuz-write tank/a 0 0 1 61
        zfs set my:note=x quota=100M tank/a
        zfs snapshot -r tank/a@s
        zfs bookmark tank/a@s tank/a#m
        zfs hold keep tank/a@s
        zfs clone tank/a@s tank/d");
    let told = |name: &str| {
        let guids = world.run(&format!("zfs get -Hp -r -t all -o value guid,createtxg,creation,referenced {name}"));
        guids + &world.run(&format!("zfs get -Hp -o value my:note,quota {name}")) + &world.run(&format!("zfs yuz-read {name}@s 0 0"))
    };
    let before = told("tank/a");
    world.run("zfs rename tank/a tank/c/e");
    assert_eq!(names(&world, "tank"), ["tank", "tank/c", "tank/c/e", "tank/c/e@s", "tank/c/e#m", "tank/c/e/b", "tank/c/e/b@s", "tank/d"]);
    assert_eq!((told("tank/c/e"), value(&world, "origin", "tank/d"), value(&world, "clones", "tank/c/e@s")), (before.clone(), "tank/c/e@s".into(), "tank/d".into()));
    // With -p what is on the way is made.
    world.run("zfs rename -p tank/c/e tank/f/g/h
        zfs rename tank/d tank/f/d
        zfs release keep tank/f/g/h@s");
    assert_eq!(names(&world, "tank/f"), ["tank/f", "tank/f/d", "tank/f/g", "tank/f/g/h", "tank/f/g/h@s", "tank/f/g/h#m", "tank/f/g/h/b", "tank/f/g/h/b@s"]);
    assert_eq!((told("tank/f/g/h"), value(&world, "origin", "tank/f/d")), (before, "tank/f/g/h@s".into()));
}

#[test]
fn a_stream_makes_the_same_file_system_elsewhere() {
    let world = World::with_pool();
    world.pool("back");
    world.run("zfs create tank/a
        zfs yuz-write tank/a 0 0 9 61
        zfs snapshot tank/a@one
        zfs yuz-write tank/a 0 3 9 62
        zfs snapshot tank/a@two
        zfs bookmark tank/a@two tank/a#two
        zfs yuz-write tank/a 0 0 1 63
        zfs snapshot tank/a@three");
    for (words, says) in [(vec!["tank/a@one"], "one"), (vec!["-I", "@one", "tank/a@two"], "two"), (vec!["-i", "#two", "tank/a@three"], "three")] {
        let said = world.receive(&world.stream(&words), &["back/a"]);
        assert_eq!((said.status, said.err.as_str()), (0, ""), "{says}");
    }
    for snapshot in ["one", "two", "three"] {
        let told = |pool: &str| {
            let name = format!("{pool}/a@{snapshot}");
            let blocks = (0..13).map(|block| world.run(&format!("zfs yuz-read {name} 0 {block}"))).collect::<String>();
            (value(&world, "guid", &name), value(&world, "creation", &name), blocks)
        };
        assert_eq!(told("tank"), told("back"), "{snapshot}");
    }
}

/// As `zfs_receive_one` of libzfs 2.1.11 and `dmu_recv_begin_check` of its kernel module have it.
#[test]
fn a_snapshot_that_is_there_is_passed_over_by_its_guid() {
    let world = World::with_pool();
    world.pool("back");
    world.run("zfs create tank/a
        zfs snapshot tank/a@1
        zfs yuz-write tank/a 0 0 1 61
        zfs snapshot tank/a@2
        zfs snapshot tank/a@3");
    let steps = world.stream(&["-I", "@1", "tank/a@3"]);
    let step = world.stream(&["-i", "@1", "tank/a@2"]);
    for (stream, target) in [(&world.stream(&["tank/a@1"]), "back/a"), (&steps, "back/a")] {
        assert_eq!(world.receive(stream, &[target]).status, 0);
    }
    let before = world.state();
    for words in [["-v", "back/a@1"], ["-vF", "back/a@3"]] {
        let said = world.receive(&step, &words);
        let told = format!("receiving incremental stream of tank/a@2 into {0}\nsnap {0} already exists; ignoring\nreceived 0B stream in 1 seconds (0B/sec)\n", words[1]);
        assert_eq!((said.status, said.out, said.err), (0, told, String::new()));
    }
    let said = world.receive(&steps, &["-v", "back/a"]);
    assert_eq!((said.status, said.out.matches("already exists; ignoring").count()), (0, 2), "{said:?}");
    assert_eq!(world.state(), before);
    let others = world.receive(&world.stream(&["-i", "@2", "tank/a@3"]), &["-n", "back/a@1"]);
    assert_eq!(others, Said { status: 0, out: String::new(), err: String::new() });
    world.run("zfs destroy back/a@2");
    let said = world.receive(&step, &["back/a@3"]);
    assert_eq!((said.status, said.err.as_str()), (1, "cannot restore to back/a@3: destination already exists\n"));
}

/// The texts are those of `set_callback`, `zfs_mount_at` and `zfs_mount_and_share` of OpenZFS 2.1.11. What is said of the mount has been done before.
#[test]
fn a_mountpoint_that_is_a_file_is_set_and_not_mounted() {
    let world = World::with_pool();
    let file = world.folder.join("tank.img").to_str().unwrap().to_owned();
    world.run("zfs create -o mountpoint=legacy tank/a
        zfs create -o mountpoint=none tank/b");
    let no_folder = |name: &str, rest: &str| Said { status: 1, out: String::new(), err: format!("cannot mount '{name}': Not a directory\n{rest}\n") };
    let set = "property may be set but unable to remount filesystem";
    assert_eq!(world.line("zfs set sharenfs=on tank/a tank/b"), Said { status: 0, out: String::new(), err: String::new() });
    world.run("zfs set sharenfs=off tank/a");
    assert_eq!(world.line(&format!("zfs set mountpoint={file} tank/a")), no_folder("tank/a", set));
    assert_eq!(value(&world, "mountpoint", "tank/a"), file);
    for value in ["on", ""] {
        assert_eq!(world.line(&format!("zfs set sharenfs={value} tank/a")), no_folder("tank/a", set));
    }
    assert_eq!(value(&world, "mounted", "tank/a"), "no");
    let created = "filesystem successfully created, but not mounted";
    assert_eq!(world.line(&format!("zfs create -o mountpoint={file} tank/c")), no_folder("tank/c", created));
    world.run("zfs snapshot tank/c@s");
    assert_eq!(world.line(&format!("zfs clone -o mountpoint={file} tank/c@s tank/d")), no_folder("tank/d", created));
    assert_eq!(world.line("zfs mount tank/c").err, "cannot mount 'tank/c': Not a directory\n");
    assert_eq!(names(&world, "tank"), ["tank", "tank/a", "tank/b", "tank/c", "tank/c@s", "tank/d"]);
}

/// As `zfs_prop_get_written_int` of OpenZFS 2.1.11 reads the name: a bookmark's may stand behind either sign, with its file system or without.
#[test]
fn what_was_written_since_a_bookmark_is_told() {
    let world = World::with_pool();
    world.run("zfs create tank/a
        zfs yuz-write tank/a 0 0 8 61
        zfs snapshot tank/a@1
        zfs bookmark tank/a@1 tank/a#one
        zfs bookmark tank/a#one tank/a#two
        zfs yuz-write tank/a 0 4 8 62
        zfs snapshot tank/a@2
        zfs yuz-write tank/a 1 0 1 63
        zfs snapshot tank/a@3
        zfs clone tank/a@2 tank/c");
    let names = ["tank/a", "tank/a@2", "tank/a@3", "tank/a@1", "tank/c"];
    let since = |property: &str| names.map(|name| value(&world, property, name));
    let written = since("written@tank/a@1");
    assert!(written[0] != "0" && written[3] == "-");
    for property in ["written#tank/a#one", "written@tank/a#two", "written#tank/a@1"] {
        assert_eq!(since(property), written, "{property}");
    }
    assert_eq!(value(&world, "written#one", "tank/a"), written[0]);
    // The snapshot goes, and the bookmark stays. A clone's bookmarks are its own.
    world.run("zfs destroy tank/a@1");
    let before = world.state();
    for property in ["written#one", "written#tank/a#two"] {
        let told: Vec<String> = names[..3].iter().map(|name| value(&world, property, name)).collect();
        assert_eq!(told, written[..3], "{property}");
    }
    assert_eq!(world.run("zfs list -Hp -o written#one,written@one tank/a"), format!("{}\t-\n", written[0]));
    for (property, name) in [("written#none", "tank/a"), ("written#one", "tank/c"), ("written#tank/a#one", "tank/c"), ("written#one", "tank/a#two")] {
        assert_eq!(value(&world, property, name), "-", "{property} {name}");
    }
    assert_eq!(world.state(), before);
}

/// The texts are those of `zfs_receive` and `zfs_mount_at` of OpenZFS 2.1.11, which mounts what was received at the end of all.
#[test]
fn a_received_file_system_that_can_t_be_mounted_is_told() {
    let world = World::with_pool();
    let file = world.folder.join("tank.img").to_str().unwrap().to_owned();
    world.run("zfs create -p tank/a/b
        zfs snapshot -r tank/a@s
        zfs snapshot -r tank/a@t");
    let place = format!("mountpoint={file}");
    let unmounted = "cannot mount 'tank/c': Not a directory\n";
    let said = world.receive(&world.stream(&["tank/a@s"]), &["-o", &place, "tank/c"]);
    assert_eq!(said, Said { status: 1, out: String::new(), err: unmounted.into() });
    assert_eq!((value(&world, "mounted", "tank/c"), value(&world, "mountpoint", "tank/c")), ("no".into(), file.clone()));
    let said = world.receive(&world.stream(&["-i", "@s", "tank/a@t"]), &["tank/c"]);
    assert_eq!(said, Said { status: 0, out: String::new(), err: String::new() });
    world.run("zfs destroy -r tank/c");
    let said = world.receive(&world.stream(&["tank/a@s"]), &["-u", "-o", &place, "tank/c"]);
    assert_eq!(said.status, 0, "{said:?}");
    world.run("zfs destroy -r tank/c");
    let below = format!("{unmounted}cannot mount '{file}/b': failed to create mountpoint: Not a directory\n");
    let said = world.receive(&world.stream(&["-R", "tank/a@t"]), &["-o", &place, "tank/c"]);
    assert_eq!(said, Said { status: 1, out: String::new(), err: below });
    assert_eq!(names(&world, "tank/c"), ["tank/c", "tank/c@s", "tank/c@t", "tank/c/b", "tank/c/b@s", "tank/c/b@t"]);
}

/// A bookmark keeps what its snapshot referenced, as the feature `bookmark_written` has it; so has a bookmark of it.
#[test]
fn a_bookmark_tells_what_its_snapshot_referenced() {
    let world = World::with_pool();
    world.run("zfs create tank/a
        zfs yuz-write tank/a 0 0 8 61
        zfs snapshot tank/a@s
        zfs bookmark tank/a@s tank/a#one
        zfs bookmark tank/a#one tank/a#two");
    let referenced = value(&world, "referenced", "tank/a@s");
    world.run("zfs destroy tank/a@s
        zfs yuz-write tank/a 0 0 9 62");
    let told = world.run("zfs list -Hp -t bookmark -o name,used,avail,refer,lrefer,mountpoint");
    assert_eq!(told, ["one", "two"].map(|name| format!("tank/a#{name}\t-\t-\t{referenced}\t{referenced}\t-\n")).concat());
    assert_ne!(value(&world, "referenced", "tank/a"), referenced);
}

/// As `print_list_stats` of OpenZFS 2.1.11 has it: the size of each device, and the space of what stands at the top.
#[test]
fn a_list_of_pools_has_their_devices() {
    let world = World::with_pool();
    let files = ["one", "two"].map(|name| world.folder.join(name).to_str().unwrap().to_owned());
    files.iter().zip([100, 80]).for_each(|(file, megabytes)| std::fs::File::create(file).unwrap().set_len(megabytes << 20).unwrap());
    world.done("zpool", ["create", "-f", "both", "mirror", &files[0], &files[1]]);
    let told = world.run("zpool list -vHp both");
    let lines: Vec<Vec<&str>> = told.lines().map(|line| line.split('\t').collect()).collect();
    let (size, used, free) = (lines[0][1], lines[0][2], lines[0][3]);
    assert_eq!((lines.len(), size), (4, "83886080"));
    assert_eq!(lines[1], ["", "mirror-0", size, used, free, "-", "-", "0", "0", "-", "ONLINE"]);
    for (line, (file, bytes)) in lines[2..].iter().zip(files.iter().zip(["104857600", "83886080"])) {
        assert_eq!(*line, ["", file, bytes, "-", "-", "-", "-", "-", "-", "-", "ONLINE"]);
    }
    let readable = world.run("zpool list -v tank");
    let name = world.folder.join("tank.img").to_str().unwrap().to_owned();
    assert!(readable.lines().nth(2).is_some_and(|line| line.starts_with(&format!("  {name}     1G")) && line.ends_with("0%  0.00%      -    ONLINE")), "{readable}");
    assert!(world.run("zpool iostat -vHp both").contains(&format!("mirror-0\t{used}\t{free}\t0")));
}

/// As `zfs_prop_get` of libzfs 2.1.11 has it.
#[test]
fn an_alternate_root_stands_before_mountpoints() {
    let world = World::with_pool();
    world.run("zfs create tank/a
        zfs create -o mountpoint=/ tank/b
        zfs create -o mountpoint=legacy tank/c
        zpool export tank
        zpool import -R /nowhere/ tank");
    let places = "tank\t/nowhere/tank\ntank/a\t/nowhere/tank/a\ntank/b\t/nowhere\ntank/c\tlegacy\n";
    assert_eq!(world.run("zfs list -H -o name,mountpoint"), places);
    assert!(world.run("zfs mount").contains("tank/a                          /nowhere/tank/a\n"));
    world.run("zpool export tank
        zpool import tank");
    assert_eq!(value(&world, "mountpoint", "tank/a"), "/tank/a");
}

#[test]
fn a_client_in_a_mountpoint_keeps_it() {
    let world = World::with_pool();
    let folder = world.folder.join("here").to_str().unwrap().to_owned();
    std::fs::create_dir(&folder).unwrap();
    world.run(&format!("zfs create -o mountpoint={folder} tank/a"));
    for line in ["set mountpoint=/elsewhere tank/a", "set canmount=off tank/a", "inherit mountpoint tank/a"] {
        let said: Said = world.command("zfs", line.split(' ')).current_dir(&folder).output().unwrap().into();
        assert_eq!((said.status, said.err), (1, format!("cannot unmount '{folder}': pool or dataset is busy\n")), "{line}");
    }
    assert_eq!(world.run("zfs get -H -o value mountpoint,canmount,mounted tank/a"), format!("{folder}\non\nyes\n"));
    let said: Said = world.command("zfs", ["set", "canmount=noauto", "tank/a"]).current_dir(&folder).output().unwrap().into();
    assert_eq!((said.status, value(&world, "mounted", "tank/a").as_str()), (0, "yes"));
}

#[test]
fn a_replication_stream_has_the_tree_with_its_properties() {
    let world = World::with_pool();
    world.pool("back");
    world.run("zfs create -p tank/a/b
        zfs set compression=lz4 my:note=x tank/a
        zfs snapshot -r tank/a@one
        zfs clone tank/a@one tank/a/c
        zfs yuz-write tank/a/c 0 0 1 63
        zfs snapshot -r tank/a@two");
    let said = world.receive(&world.stream(&["-R", "tank/a@two"]), &["back/a"]);
    assert_eq!((said.status, said.err.as_str()), (0, ""));
    assert_eq!(world.done("zfs", ["get", "-H", "-o", "value,source", "my:note", "back/a"]), "x\treceived\n");
    assert_eq!(value(&world, "compression", "back/a/b"), "lz4");
    assert_eq!(value(&world, "origin", "back/a/c"), "back/a@one");
    assert!(world.run("zfs yuz-read back/a/c@two 0 0").starts_with("6300"));
    let below = |pool: &str| names(&world, &format!("{pool}/a")).iter().map(|name| name[4..].to_owned()).collect::<Vec<_>>();
    assert_eq!(below("tank"), below("back"));
}

#[test]
fn a_cut_receive_goes_on_from_where_it_was() {
    let world = World::with_pool();
    world.pool("back");
    world.run("zfs create tank/a
        zfs yuz-write tank/a 0 0 400 61
        zfs snapshot tank/a@one");
    let whole = world.stream(&["tank/a@one"]);
    let cut = world.receive(&whole[..whole.len() / 2], &["-s", "back/a"]);
    assert_eq!(cut.status, 1);
    let token = value(&world, "receive_resume_token", "back/a");
    assert!(cut.err.contains(&token) && token.len() > 3 && token.bytes().all(|byte| byte.is_ascii_alphanumeric() || byte == b'-'), "{token} {cut:?}");
    let rest = world.stream(&["-t", &token]);
    assert!(rest.len() < whole.len() * 3 / 4, "{} of {}", rest.len(), whole.len());
    let said = world.receive(&rest, &["-s", "back/a"]);
    assert_eq!((said.status, said.err.as_str()), (0, ""));
    assert_eq!(value(&world, "guid", "back/a@one"), value(&world, "guid", "tank/a@one"));
    assert!(world.run("zfs yuz-read back/a@one 0 399").starts_with("6100"));
    assert_eq!(value(&world, "receive_resume_token", "back/a"), "-");
}

#[test]
fn the_clients_clock_counts() {
    let world = World::with_pool();
    world.run("zfs create tank/a
        zfs snapshot tank/a@s");
    let now = std::time::SystemTime::now().duration_since(std::time::UNIX_EPOCH).unwrap().as_secs();
    for name in ["tank/a", "tank/a@s"] {
        let creation: u64 = value(&world, "creation", name).parse().unwrap();
        assert!(creation <= now && now - creation < 120, "{name}: {creation}, now {now}");
    }
}

#[test]
fn a_pool_is_told_of_exported_and_taken_back() {
    let world = World::with_pool();
    assert_eq!(world.run("zpool list -H -o name,health"), "tank\tONLINE\n");
    assert!(world.run("zpool status tank").contains(" state: ONLINE\n"));
    assert_eq!(world.run("zpool get -H -o value size tank").trim(), "1G");
    world.run("zfs create tank/a
        zpool export tank");
    assert_eq!(world.line("zfs list -H tank").status, 1);
    world.run("zpool import tank");
    assert_eq!(names(&world, "tank"), ["tank", "tank/a"]);
    assert!(world.run("zpool history tank").contains("zfs create tank/a"));
    world.run("zpool destroy tank");
    assert_eq!(world.line("zpool list").out, "no pools available\n");
}

#[test]
fn the_programs_say_what_they_are() {
    let world = World::new();
    let version = world.line("zfs --version");
    assert!(version.status == 0 && version.out.starts_with("zfs-2.1.11"), "{version:?}");
    assert!((version.out + &version.err).contains("None of this program is proved"), "what is proved and what isn't");
    let usage = world.line("zfs -?");
    assert!(usage.out.starts_with("usage: zfs command args ...\n") || usage.err.starts_with("usage: zfs command args ...\n"), "{usage:?}");
    assert_eq!(world.line("zfs frobnicate").status, 2);
    assert!(world.line("zfs frobnicate").err.starts_with("unrecognized command 'frobnicate'\nusage: zfs command args ...\n"));
}

#[test]
fn lists_may_end_with_a_comma_and_columns_are_as_wide_as_openzfs_s() {
    let world = World::with_pool();
    assert_eq!(world.run("zfs list -H -o name, tank"), "tank\n");
    assert_eq!(world.line("zfs list -t snapshot, tank").err, "no datasets available\n");
    assert_eq!(world.run("zfs get compression tank"), "NAME  PROPERTY     VALUE           SOURCE\ntank  compression  off             default\n");
    assert!(world.run("zfs list -o name,used,available,referenced tank").starts_with("NAME   USED  AVAIL     REFER\n"));
    assert!(world.run("zpool list -o name,size,health,altroot tank").starts_with("NAME   SIZE    HEALTH  ALTROOT\n"));
}

#[test]
fn a_volume_reserves_what_libzfs_does() {
    let world = World::with_pool();
    assert!(world.run("zfs create -nvP -V 10M tank/v").contains("property\trefreservation\t13107200\n"));
    world.run("zfs create -V 10M tank/v
        zfs set volsize=20M tank/v");
    assert_eq!(value(&world, "refreservation", "tank/v"), "23855104");
    world.run("zfs set refreservation=none tank/v
        zfs set refreservation=auto tank/v");
    assert_eq!(value(&world, "refreservation", "tank/v"), "23855104");
}

#[test]
fn a_stream_is_received_as_a_clone_of_what_is_named() {
    let world = World::with_pool();
    world.run("zfs create tank/a
        zfs yuz-write tank/a 0 0 1 61
        zfs snapshot tank/a@one
        zfs yuz-write tank/a 0 0 1 62
        zfs snapshot tank/a@two");
    let full = world.stream(&["tank/a@two"]);
    let said = world.receive(&full, &["-v", "-o", "origin=tank/a@one", "tank/b"]);
    assert_eq!((said.status, said.out.lines().next()), (0, Some("using provided clone origin tank/a@one")), "{said:?}");
    assert_eq!(value(&world, "origin", "tank/b"), "tank/a@one");
    assert!(world.run("zfs yuz-read tank/b@two 0 0").starts_with("6200"));
}

#[test]
fn a_send_tells_its_steps_as_openzfs_does() {
    let world = World::with_pool();
    world.run("zfs create tank/a
        zfs snapshot tank/a@1
        zfs snapshot tank/a@2
        zfs bookmark tank/a@1 tank/a#m");
    let first = |words: &str| world.run(&format!("zfs send {words} tank/a@2")).lines().next().unwrap_or_default().to_owned();
    assert!(first("-nvP").starts_with("full\ttank/a@2\t"));
    assert!(first("-nvP -i @1").starts_with("incremental\ttank/a@1\ttank/a@2\t"));
    assert!(first("-nvP -i #m").starts_with("incremental\ttank/a#m\ttank/a@2\t"));
    assert!(first("-nvP -I @1").starts_with("incremental\t1\ttank/a@2\t"));
    assert!(first("-nv -i @1").starts_with("send from tank/a@1 to tank/a@2 estimated size is "));
    assert!(first("-nv -I @1").starts_with("send from @1 to tank/a@2 estimated size is "));
    assert!(world.run("zfs send -nvP -i @1 tank/a@2").lines().last().unwrap().starts_with("size\t"));
}

/// A pool `tank` that is mounted below a folder of the test's own, and that folder.
fn mounted_world() -> (World, String) {
    let world = World::new();
    let (file, place) = (world.folder.join("tank.img"), world.folder.join("m"));
    std::fs::File::create(&file).unwrap().set_len(1 << 30).unwrap();
    let place = place.to_str().unwrap().to_owned();
    world.done("zpool", ["create", "-m", &place, "tank", file.to_str().unwrap()]);
    (world, place)
}

#[test]
fn a_mountpoint_in_which_the_caller_stands_is_busy() {
    let (world, place) = mounted_world();
    world.run("zfs create -p tank/a/b");
    let inside = format!("{place}/a/b");
    std::fs::create_dir_all(&inside).unwrap();
    let from_inside = |words: &str| Said::from(world.command("zfs", words.split(' ')).current_dir(&inside).output().unwrap());
    let busy = Said { status: 1, out: String::new(), err: format!("cannot unmount '{inside}': pool or dataset is busy\n") };
    for refused in ["rename tank/a tank/c", "unmount tank/a/b", "unmount tank/a", "destroy -r tank/a", "destroy tank/a/b"] {
        assert_eq!(from_inside(refused), busy, "{refused}");
    }
    assert_eq!(from_inside("destroy -nr tank/a").status, 0);
    // With -u nothing is mounted elsewhere, so that it stays where it was until it is mounted again.
    assert_eq!(from_inside("rename -u tank/a tank/c").status, 0);
    assert_eq!(value(&world, "mountpoint", "tank/c/b"), format!("{place}/c/b"));
    assert!(world.run("zfs mount").contains(&format!("tank/c/b                        {inside}\n")));
    assert_eq!(from_inside("rename tank/c tank/d"), busy);
    world.run("zfs rename tank/c tank/d");
    assert!(world.run("zfs mount").contains(&format!("tank/d/b                        {place}/d/b\n")));
}

#[test]
fn folders_are_made_at_mountpoints_where_that_is_asked() {
    let (world, place) = mounted_world();
    let is_folder = |name: &str| std::path::Path::new(&format!("{place}{name}")).is_dir();
    world.run("zfs create tank/a");
    assert!(!is_folder("/a"));
    let made = |words: &str| assert!(world.command("zfs", words.split(' ')).env("YUZFRONT_FOLDERS", "1").status().unwrap().success());
    made("create -o canmount=off tank/b");
    made("create tank/b/c");
    assert!(is_folder("/a") && is_folder("/b/c"));
    made("create -u tank/d");
    assert!(!is_folder("/d"));
}

#[test]
fn a_receive_overrides_at_the_top_and_hides_what_it_leaves_out() {
    let world = World::with_pool();
    world.run("zfs create -p tank/a/b
        zfs set copies=2 my:note=x quota=1G refquota=1G tank/a
        zfs set compression=lz4 quota=2G tank/a/b
        zfs snapshot -r tank/a@s");
    let stream = world.stream(&["-R", "tank/a@s"]);
    let words = "-o canmount=noauto -o compress=gzip -o quota=3G -x copies -x my:note -x refquota tank/z";
    let said = world.receive(&stream, &words.split(' ').collect::<Vec<_>>());
    assert_eq!(said.status, 0, "{said:?}");
    let told = |property: &str, name: &str| world.done("zfs", ["get", "-H", "-o", "value,received,source", property, name]);
    assert_eq!(told("canmount", "tank/z"), "noauto\t-\tlocal\n");
    assert_eq!(told("canmount", "tank/z/b"), "on\t-\tdefault\n");
    assert_eq!(told("compression", "tank/z"), "gzip\t-\tlocal\n");
    assert_eq!(told("compression", "tank/z/b"), "gzip\tlz4\tinherited from tank/z\n");
    assert_eq!(told("quota", "tank/z"), "3G\t1G\tlocal\n");
    assert_eq!(told("quota", "tank/z/b"), "2G\t2G\treceived\n");
    assert_eq!(told("copies", "tank/z"), "1\t2\tdefault\n");
    assert_eq!(told("my:note", "tank/z"), "-\tx\t-\n");
    assert_eq!(told("refquota", "tank/z"), "none\t-\tdefault\n");
}

#[test]
fn a_replication_brings_properties_of_snapshots_that_are_there() {
    let world = World::with_pool();
    world.run("zfs create tank/a
        zfs snapshot tank/a@s");
    assert_eq!(world.receive(&world.stream(&["-R", "tank/a@s"]), &["tank/z"]).status, 0);
    world.run("zfs set my:note=late tank/a@s
        zfs snapshot tank/a@t");
    assert_eq!(world.receive(&world.stream(&["-R", "-I", "@s", "tank/a@t"]), &["tank/z"]).status, 0);
    assert_eq!(world.run("zfs get -H -o value,source my:note tank/z@s"), "late\treceived\n");
}

/// As `print_scan_scrub_resilver_status` of OpenZFS 2.1.11 has it: no line where nothing was ever scrubbed.
#[test]
fn a_scrub_is_told_by_zpool_status() {
    let world = World::with_pool();
    world.pool("back");
    let lines = |pool: &str| world.run(&format!("zpool status {pool}")).lines().map(str::to_owned).collect::<Vec<_>>();
    let before = lines("tank");
    assert!(before.iter().all(|line| !line.contains("scan:")), "{before:?}");
    world.run("zpool scrub tank");
    let after = lines("tank");
    assert!(after[2].starts_with("  scan: scrub repaired 0B in 00:00:00 with 0 errors on "), "{after:?}");
    let date: Vec<&str> = after[2].rsplit(' ').take(5).filter(|word| !word.is_empty()).collect();
    assert!(date[0].len() == 4 && date[1].len() == 8 && date[1].matches(':').count() == 2, "{after:?}");
    assert_eq!([&after[..2], &after[3..]].concat(), before);
    assert_eq!(world.line("zpool scrub -s tank").status, 1);
    assert!(lines("back").iter().all(|line| !line.contains("scan:")));
    world.run("zpool export tank
        zpool import tank");
    assert_eq!(lines("tank"), after);
}

/// As `dsl_dataset_clone_swap_check_impl` of OpenZFS 2.1.11 has it: a refquota doesn't bind a receive but by the slack of a transaction.
#[test]
fn a_receive_goes_over_a_refquota() {
    let world = World::with_pool();
    world.run("zfs create tank/a
        zfs yuz-write tank/a 0 0 8 61
        zfs snapshot tank/a@1
        zfs yuz-write tank/a 1 0 64 62
        zfs snapshot tank/a@2
        zfs yuz-write tank/a 2 0 8 63
        zfs snapshot tank/a@3");
    let nothing = Said { status: 0, out: String::new(), err: String::new() };
    assert_eq!(world.receive(&world.stream(&["tank/a@1"]), &["tank/b"]), nothing);
    let small: u64 = value(&world, "referenced", "tank/b").parse().unwrap();
    let refquota = (small + 10 * 512).to_string();
    world.run(&format!("zfs set refquota={refquota} tank/b"));
    for (from, to) in [("@1", "tank/a@2"), ("@2", "tank/a@3")] {
        assert_eq!(world.receive(&world.stream(&["-i", from, to]), &["tank/b"]), nothing);
    }
    let referenced = value(&world, "referenced", "tank/b");
    assert_eq!((referenced.as_str(), value(&world, "refquota", "tank/b")), (value(&world, "referenced", "tank/a").as_str(), refquota.clone()));
    assert!(referenced.parse::<u64>().unwrap() > small + 64 * 512);
    // One that comes with the stream is set after it, as far as it can be.
    let told = "cannot receive refquota property on tank/c: size is less than current used or reserved space\n";
    assert_eq!(world.receive(&world.stream(&["-p", "tank/b@3"]), &["tank/c"]), Said { status: 0, out: String::new(), err: told.into() });
    // Nothing is written that makes it refer to more; and once it refers to less, the refquota is what it was.
    let full = Said { status: 1, out: String::new(), err: "tank/b: Disk quota exceeded\n".into() };
    assert_eq!(world.line("zfs yuz-write tank/b 9 0 1 64"), full);
    world.run("zfs rollback -r tank/b@1
        zfs yuz-write tank/b 0 8 2 64");
    assert_eq!(world.line("zfs yuz-write tank/b 9 0 8 64"), full);
    assert_eq!(value(&world, "refquota", "tank/b"), refquota);
}

/// `zfs_receive_package` of OpenZFS 2.1.11 knows of no origin.
#[test]
fn an_origin_is_of_a_lone_stream() {
    let world = World::with_pool();
    world.run("zfs create tank/a
        zfs yuz-write tank/a 0 0 1 61
        zfs snapshot tank/a@1
        zfs yuz-write tank/a 0 0 1 62
        zfs snapshot tank/a@2
        zfs yuz-write tank/a 0 0 1 63
        zfs snapshot tank/a@3");
    let origin = ["-v", "-o", "origin=tank/a@1"];
    let receive = |words: &[&str], to: &str| world.receive(&world.stream(words), &[&origin, &[to][..]].concat());
    let provided = "using provided clone origin tank/a@1\n";
    let said = receive(&["-i", "@1", "tank/a@2"], "tank/b");
    assert!(said.status == 0 && said.out.starts_with(provided), "{said:?}");
    assert_eq!(value(&world, "origin", "tank/b"), "tank/a@1");
    let steps = ["-I", "@1", "tank/a@3"];
    let said = receive(&steps, "tank/c");
    assert_eq!((said.status, said.err.as_str()), (1, "cannot receive incremental stream: destination 'tank/c' does not exist\n"));
    assert_eq!(world.receive(&world.stream(&["tank/a@1"]), &["tank/c"]).status, 0);
    for (words, to) in [(&steps[..], "tank/c"), (&["-p", "tank/a@1"], "tank/d"), (&["-R", "tank/a@2"], "tank/e")] {
        let said = receive(words, to);
        assert!(said.status == 0 && !said.out.contains(provided), "{said:?}");
        assert_eq!(value(&world, "origin", to), "-");
    }
    assert_eq!(names(&world, "tank/c"), ["tank/c", "tank/c@1", "tank/c@2", "tank/c@3"]);
    let said = world.receive(&world.stream(&steps), &["-o", "origin=tank/a@none", "tank/c"]);
    assert_eq!((said.status, said.err.as_str()), (1, "cannot receive: specified origin fs (tank/a@none) does not exist\n"));
}

#[test]
fn a_receive_sets_what_the_kind_has() {
    let world = World::with_pool();
    world.run("zfs create -p tank/a
        zfs create -s -V 1M tank/a/v
        zfs snapshot -r tank/a@s");
    let said = world.receive(&world.stream(&["tank/a/v@s"]), &["-o", "atime=off", "tank/v"]);
    assert_eq!(said.err, "cannot receive new filesystem stream: property 'atime' does not apply to datasets of this type\n");
    assert_eq!(world.receive(&world.stream(&["tank/a/v@s"]), &["-x", "atime", "tank/v"]).status, 0);
    assert_eq!(world.receive(&world.stream(&["-R", "tank/a@s"]), &["-o", "atime=off", "tank/z"]).status, 0);
    assert_eq!((value(&world, "atime", "tank/z"), value(&world, "atime", "tank/z/v")), ("off".into(), "-".into()));
}
