//! Names of snapshots: a rename keeps all but the name, a refused one changes nothing, and what a name may have.

mod common;
use common::World;

fn names(world: &World, of: &str) -> Vec<String> {
    world.done("zfs", ["list", "-H", "-r", "-t", "all", "-o", "name", of]).lines().map(str::to_owned).collect()
}

fn value(world: &World, property: &str, name: &str) -> String {
    world.done("zfs", ["get", "-Hp", "-o", "value", property, name]).trim_end_matches('\n').to_owned()
}

/// What stays through a rename: properties, tags without the name, the first block.
fn kept(world: &World, name: &str) -> String {
    let properties = "guid,creation,createtxg,used,referenced,written,userrefs,clones,defer_destroy,my:note";
    let holds = world.done("zfs", ["holds", "-Hp", name]).lines().map(|line| line.replacen(name, "", 1) + "\n").collect::<String>();
    world.done("zfs", ["get", "-Hp", "-o", "property,value,source", properties, name]) + &holds + &world.done("zfs", ["yuz-read", name, "0", "0"])
}

/// Two file systems with snapshots of one name, of which one has tags, a clone and a bookmark.
fn world() -> World {
    let world = World::with_pool();
    world.run("zfs create -p tank/a/b
        zfs create tank/a/none
        zfs create tank/ab
        zfs yuz-write tank/a 0 0 1 61
        zfs snapshot -r -o my:note=n tank/a@one
        zfs snapshot tank/ab@one
        zfs yuz-write tank/a 0 0 1 62
        zfs destroy tank/a/none@one
        zfs snapshot tank/a@two
        zfs hold keep tank/a@one
        zfs hold other tank/a@one
        zfs clone tank/a@one tank/c
        zfs bookmark tank/a@one tank/a#mark
        zfs bookmark tank/a#mark tank/a#again");
    world
}

#[test]
fn a_renamed_snapshot_keeps_all_but_its_name() {
    let world = world();
    let before = kept(&world, "tank/a@one");
    world.run("zfs rename tank/a@one tank/a@first");
    assert_eq!(kept(&world, "tank/a@first"), before);
    let all = ["tank/a", "tank/a@first", "tank/a@two", "tank/a#again", "tank/a#mark", "tank/a/b", "tank/a/b@one", "tank/a/none"];
    assert_eq!(names(&world, "tank/a"), all);
    assert_eq!((value(&world, "origin", "tank/c"), value(&world, "clones", "tank/a@first")), ("tank/a@first".into(), "tank/c".into()));
    assert_eq!(value(&world, "guid", "tank/a#mark"), value(&world, "guid", "tank/a@first"));
    assert!(world.line("zfs destroy tank/a@first").err.starts_with("cannot destroy 'tank/a@first': snapshot has dependent clones\n"));
    // The old name is free, and the tags are released by the new one.
    world.run("zfs snapshot tank/a@one
        zfs promote tank/c
        zfs release keep tank/c@first
        zfs rename tank/c@first @oldest
        zfs release other tank/c@oldest");
    assert_eq!(names(&world, "tank/c"), ["tank/c", "tank/c@oldest"]);
    assert_eq!(value(&world, "origin", "tank/a"), "tank/c@oldest");
    assert_eq!(names(&world, "tank/a")[..3], ["tank/a", "tank/a@two", "tank/a@one"]);
}

#[test]
fn a_recursive_rename_is_of_all_that_have_the_name() {
    let world = world();
    let before = ["tank/a@one", "tank/a/b@one"].map(|name| kept(&world, name));
    world.run("zfs rename -r tank/a@one @1");
    assert_eq!(["tank/a@1", "tank/a/b@1"].map(|name| kept(&world, name)), before);
    let all = ["tank/a", "tank/a@1", "tank/a@two", "tank/a#again", "tank/a#mark", "tank/a/b", "tank/a/b@1", "tank/a/none"];
    assert_eq!((names(&world, "tank/a"), names(&world, "tank/ab")), (all.map(String::from).to_vec(), vec!["tank/ab".into(), "tank/ab@one".into()]));
    world.run("zfs rename tank/a@1 tank/a@one
        zfs rename -r tank/a/b@1 one");
    assert_eq!(["tank/a@one", "tank/a/b@one"].map(|name| kept(&world, name)), before);
}

#[test]
fn a_refused_rename_of_snapshots_changes_nothing() {
    let world = world();
    let deep = format!("tank/a/{}", "d".repeat(100));
    world.run(&format!("zfs create {deep}
        zfs snapshot {deep}@one
        zfs snapshot tank/a/b@taken"));
    let long = |whole: usize| format!("tank/a@{}", "x".repeat(whole - "tank/a@".len()));
    let before = world.state();
    let below = "cannot rename 'tank/a@one': dataset name is too long\n";
    for (words, text) in [
        (vec!["tank/a@one", "tank/a@two"], "cannot rename 'tank/a@one': dataset already exists\n".to_owned()),
        (vec!["-r", "tank/a@one", "@two"], "cannot rename 'tank/a@one': a child dataset already has a snapshot with the new name\n".into()),
        (vec!["-r", "tank/a@one", "@taken"], "cannot rename 'tank/a@one': a child dataset already has a snapshot with the new name\n".into()),
        (vec!["tank/a@one", &long(256)], format!("cannot rename to '{}': name is too long\n", long(256))),
        (vec!["-r", "tank/a@one", &long(256)], format!("cannot rename to '{}': name is too long\n", long(256))),
        (vec!["-r", "tank/a@one", &long(255)], below.into()),
        (vec!["-r", "tank/a@one", &long(155)], below.into()),
        (vec!["tank/a@nope", "@new"], "cannot open 'tank/a@nope': dataset does not exist\n".into()),
        (vec!["-r", "tank/a@taken", "@new"], "cannot open 'tank/a@taken': dataset does not exist\n".into()),
        (vec!["tank/a@one", "tank/b@new"], "cannot rename to 'tank/b@new': snapshots must be part of same dataset\n".into()),
        (vec!["tank/a@one", "a%b"], "cannot rename to 'a%b': invalid character % in name\n".into()),
    ] {
        let said = world.say("zfs", [&["rename"], &words[..]].concat());
        assert_eq!((said.status, said.err), (1, text), "{words:?}");
        assert_eq!(world.state(), before, "{words:?}");
    }
    world.done("zfs", ["rename", "-r", "tank/a@one", &long(154)]);
    world.done("zfs", ["rename", "tank/a@two", &long(255)]);
    assert_eq!(names(&world, "tank/a")[..3], ["tank/a".into(), long(154), long(255)]);
}

#[test]
fn a_send_goes_on_from_a_renamed_snapshot() {
    let world = world();
    world.pool("back");
    world.run("zfs destroy -r tank/a/none");
    let received = |words: &[&str], to: &str| {
        let said = world.receive(&world.stream(words), &["-F", to]);
        assert_eq!((said.status, said.err.as_str()), (0, ""), "{words:?}");
    };
    received(&["-R", "tank/a@one"], "back/a");
    world.run("zfs rename -r tank/a@one @first
        zfs snapshot -r tank/a@three");
    received(&["-i", "#again", "tank/a@two"], "back/a");
    assert_eq!(names(&world, "back/a"), ["back/a", "back/a@one", "back/a@two", "back/a/b", "back/a/b@one"]);
    // A replication renames what the sender has renamed, also to the name of one that the sender has destroyed.
    for renames in [
        "",
        "zfs destroy tank/a@two
        zfs rename -r tank/a@three @two
        zfs snapshot -r tank/a@three",
    ] {
        world.run(renames);
        let from = if renames.is_empty() { "@first" } else { "@two" };
        received(&["-R", "-I", from, "tank/a@three"], "back/a");
        let told = |pool: &str| {
            let names = names(&world, pool).into_iter().filter(|name| name.contains('@'));
            let of = |name: String| (name.replacen(pool, "", 1), value(&world, "guid", &name), world.done("zfs", ["yuz-read", &name, "0", "0"]));
            names.map(of).collect::<Vec<_>>()
        };
        assert_eq!(told("tank/a"), told("back/a"), "{renames}");
        assert_eq!(told("back/a").len(), if renames.is_empty() { 5 } else { 6 });
    }
}

#[test]
fn names_may_have_blanks_and_many_letters() {
    let world = world();
    let snapshot = |name: &str| world.done("zfs", ["snapshot", name]);
    let rename = |name: &str, to: &str| world.say("zfs", ["rename", name, to]);
    let with = |letter: &str, count: usize| format!("tank/a@{}", letter.repeat(count));
    assert_eq!(rename("tank/a@one", "a first  one ").status, 0);
    assert_eq!(value(&world, "origin", "tank/c"), "tank/a@a first  one ");
    assert_eq!(rename("tank/a@a first  one ", "one").status, 0);
    // Blanks take three bytes each, and what looks like one of them is another name.
    for name in ["tank/a@ ", "tank/a@:._", "tank/a@:.", "tank/a@:", "tank/a@:..", "tank/a@:.-"] {
        snapshot(name);
    }
    world.done("zfs", ["destroy", "tank/a@ ,:._,:.,:,:..,:.-"]);
    assert_eq!(names(&world, "tank/a")[..3], ["tank/a", "tank/a@one", "tank/a@two"]);
    let (blanks, letters) = (with(" ", 83), with("x", 248));
    assert_eq!(rename("tank/a@two", &with(" ", 84)).err, format!("cannot rename to '{}': name is too long\n", with(" ", 84)));
    assert_eq!(rename("tank/a@two", &with("x", 249)).err, format!("cannot rename to '{}': name is too long\n", with("x", 249)));
    assert_eq!(world.say("zfs", ["snapshot", &with(" ", 84)]).err, format!("cannot create snapshot '{}': name is too long\n", with(" ", 84)));
    assert_eq!(rename("tank/a@two", &blanks).status, 0);
    assert_eq!(rename(&blanks, &letters).status, 0);
    snapshot(&blanks);
    world.pool("b");
    for words in [vec!["tank/a@one"], vec!["-I", "@one", &blanks]] {
        let said = world.receive(&world.stream(&words), &["b/a"]);
        assert_eq!((said.status, said.err.as_str()), (0, ""), "{words:?}");
    }
    assert_eq!(names(&world, "b/a"), [String::from("b/a"), "b/a@one".into(), letters.replacen("tank", "b", 1), blanks.replacen("tank", "b", 1)]);
    let stream = world.stream(&[&letters]);
    assert_eq!(world.receive(&stream, &[&with(" ", 84).replacen("/a", "/n", 1)]).err, "cannot receive: invalid name\n");
    assert_eq!(world.receive(&stream, &[&with(" ", 83).replacen("/a", "/n", 1)]).status, 0);
}

#[test]
fn renamed_snapshots_go_through_an_export() {
    let world = world();
    world.run("zfs rename -r tank/a@one @first
        zfs rename tank/a tank/z");
    let before = (world.state(), kept(&world, "tank/z@first"));
    world.run("zpool export tank
        zpool import tank");
    assert_eq!((world.state(), kept(&world, "tank/z@first")), before);
    world.run("zpool export tank
        zpool import tank pond");
    let all = ["pond/z", "pond/z@first", "pond/z@two", "pond/z#again", "pond/z#mark", "pond/z/b", "pond/z/b@first", "pond/z/none"];
    assert_eq!((names(&world, "pond/z"), value(&world, "origin", "pond/c")), (all.map(String::from).to_vec(), "pond/z@first".into()));
    world.run("zfs rename -r pond/z@first @one
        zpool export pond
        zpool import pond tank");
    assert_eq!((names(&world, "tank/z/b"), value(&world, "origin", "tank/c")), (vec!["tank/z/b".into(), "tank/z/b@one".into()], "tank/z@one".into()));
}
