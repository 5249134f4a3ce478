//! The typed calls, each compared with what a line of the same pool tells.

use std::error::Error as StdError;
use std::io::{Read, Write};
use yuzgont::{Error, Kind, Limit, Pool, PoolProperty, Receiving};

type Outcome = Result<(), Box<dyn StdError>>;

/// What a line is answered, without its line feed.
fn told(pool: &mut Pool, line: &str) -> Result<String, Box<dyn StdError>> {
    Ok(String::from_utf8(pool.line(line)?.text)?.trim_end().to_string())
}

fn expect(pool: &mut Pool, line: &str, wanted: &str) -> Outcome {
    assert_eq!(told(pool, line)?, wanted, "{line}");
    Ok(())
}

fn stream(pool: &mut Pool, name: &str, from: Option<&str>) -> Result<Vec<u8>, Box<dyn StdError>> {
    let mut bytes = Vec::new();
    pool.send(name, from)?.read_to_end(&mut bytes)?;
    Ok(bytes)
}

fn received<'a>(pool: &'a mut Pool, name: &'a str, bytes: &[u8], mode: Receiving<'a>) -> Result<(), Error> {
    let mut receiver = pool.receive(name, mode);
    receiver.write_all(bytes).map_err(|_| Error::NoMemory)?;
    receiver.finish()
}

/// A receive past a newer snapshot, as a clone, and in the place of a file system.
fn receive_in_modes(pool: &mut Pool) -> Outcome {
    let mut backup = Pool::create(2, 1000)?;
    let full = stream(pool, "p/c@s", None)?;
    let next = stream(pool, "p/a@t", Some("p/c@s"))?;
    received(&mut backup, "p/a@s", &full, Receiving::Plain)?;
    backup.snapshot("p/a@newer", false)?;
    assert_eq!(received(&mut backup, "p/a@t", &next, Receiving::Back), Err(Error::WrongSource));
    received(&mut backup, "p/a@t", &next, Receiving::Past)?;
    expect(&mut backup, "list", "p p/a p/a@s p/a@t")?;
    received(&mut backup, "p/b@t", &next, Receiving::Origin("p/a@s"))?;
    expect(&mut backup, "get origin p/b", "p/a@s")?;
    assert_eq!(received(&mut backup, "p/b@s", &full, Receiving::Replace), Err(Error::Exists));
    received(&mut backup, "p@s", &full, Receiving::Replace)?;
    expect(&mut backup, "list", "p p@s p/a p/a@s p/a@t p/b p/b@t")
}

/// Destroys of several snapshots, all or none of them.
fn destroy_several() -> Outcome {
    let mut pool = Pool::create(3, 1000)?;
    pool.create_file_system("p/a")?;
    for name in ["p@1", "p@2", "p@3"] {
        pool.write("p", 0, 0, &[name.as_bytes()[2]; 512])?;
        pool.snapshot(name, true)?;
    }
    pool.clone_snapshot("p@2", "p/c")?;
    pool.hold("kept", "p/a@3")?;
    let all = "p p@1 p@2 p@3 p/a p/a@1 p/a@2 p/a@3 p/c";
    assert_eq!(pool.destroy_snapshots(&["p@1", "p@2"], false, false), Err(Error::HasClones));
    assert_eq!(pool.destroy_snapshots(&["p@1", "p@3"], true, false), Err(Error::Busy));
    assert_eq!(pool.destroy_snapshots(&["p@2", "p/a@3"], false, false), Err(Error::Busy));
    assert_eq!(pool.destroy_snapshots(&["p@4", "p/b@1"], true, true), Err(Error::NoDataset));
    for wrong in [&["p@1", "p"][..], &["p@1 p@3"], &["p@1", ""], &[]] {
        assert_eq!(pool.destroy_snapshots(wrong, false, false), Err(Error::BadName));
    }
    expect(&mut pool, "list", all)?;
    pool.destroy_snapshots(&["p@3", "p/a@2", "p@4", "p@3"], false, false)?;
    expect(&mut pool, "list", "p p@1 p@2 p/a p/a@1 p/a@3 p/c")?;
    pool.destroy_snapshots(&["p@1", "p@2", "p@3"], true, true)?;
    expect(&mut pool, "list", "p p@2 p/a p/a@3 p/c")?;
    pool.release("kept", "p/a@3")?;
    pool.destroy("p/c", false, false)?;
    expect(&mut pool, "list", "p p/a")
}

/// A pool with p/a, p/a@s, p/a@t, p/a#m, p/a/x, p/a/x@u, and a clone p/c of p/a@s.
fn with_a_family() -> Result<Pool, Box<dyn StdError>> {
    let mut pool = Pool::create(4, 1000)?;
    pool.create_file_system("p/a")?;
    pool.write("p/a", 0, 0, &[97; 512])?;
    pool.snapshot("p/a@s", false)?;
    pool.write("p/a", 0, 0, &[98; 512])?;
    pool.snapshot("p/a@t", false)?;
    pool.bookmark("p/a@t", "p/a#m")?;
    pool.create_file_system("p/a/x")?;
    pool.write("p/a/x", 0, 0, &[99; 512])?;
    pool.snapshot("p/a/x@u", false)?;
    pool.clone_snapshot("p/a@s", "p/c")?;
    Ok(pool)
}

/// A rename takes all below the file system with it, and changes nothing but names.
fn rename_a_family() -> Outcome {
    let mut pool = with_a_family()?;
    pool.hold("kept", "p/a@t")?;
    pool.set("p/a", Limit::Quota, 51_200)?;
    let view = pool.open_view("p/a/x@u")?;
    let sent = stream(&mut pool, "p/a@t", Some("p/a@s"))?;
    let before = pool.entries()?;
    pool.rename("p/a", "p/d")?;
    expect(&mut pool, "list", "p p/c p/d p/d@s p/d@t p/d#m p/d/x p/d/x@u")?;
    expect(&mut pool, "get origin p/c", "p/d@s")?;
    expect(&mut pool, "get clones p/d@s", "p/c")?;
    expect(&mut pool, "get quota p/d", "51200")?;
    assert_eq!(pool.holds("p/d@t")?, ["kept"]);
    for (name, byte) in [("p/d@s", 97), ("p/d", 98), ("p/d/x@u", 99), ("p/c", 97)] {
        assert_eq!(pool.read(name, 0, 0)?, Some([byte; 512]), "{name}");
    }
    assert_eq!(pool.destroy("p/d/x@u", false, false), Err(Error::Busy));
    pool.close_view(view)?;
    assert_eq!(stream(&mut pool, "p/d@t", Some("p/d@s"))?, sent);
    pool.rename("p/d", "p/c/d")?;
    pool.rename("p/c", "p/b")?;
    expect(&mut pool, "list", "p p/b p/b/d p/b/d@s p/b/d@t p/b/d#m p/b/d/x p/b/d/x@u")?;
    expect(&mut pool, "get origin p/b", "p/b/d@s")?;
    pool.rename("p/b/d", "p/a")?;
    pool.rename("p/b", "p/c")?;
    assert_eq!(pool.entries()?, before);
    Ok(())
}

/// What refuses a rename, which has changed nothing then.
fn rename_is_refused() -> Outcome {
    let mut pool = with_a_family()?;
    let before = pool.entries()?;
    for (name, to, error) in [
        ("p/none", "p", Error::NoDataset),
        ("p", "p", Error::IsRoot),
        ("p/a", "p", Error::Exists),
        ("p/a", "p/a", Error::Exists),
        ("p/a", "p/a/x", Error::Exists),
        ("p/a", "p/none/a", Error::NoParent),
        ("p/a", "q", Error::NoParent),
        ("p/a", "p/a/none/y", Error::NoParent),
        ("p/a", "p/a/y", Error::BadName),
        ("p/a", "p/a/x/y", Error::BadName),
        ("p/a@s", "p/a@v", Error::BadName),
        ("p/a", "p/d@s", Error::BadName),
        ("p/a", "", Error::BadName),
        ("", "p/d", Error::BadName),
    ] {
        assert_eq!(pool.rename(name, to), Err(error), "{name} {to}");
    }
    // The longest name that the rename makes is that of the snapshot of the child.
    let long = format!("p/{}", "l".repeat(255 - "p/".len() - "/x@u".len()));
    assert_eq!(pool.rename("p/a", &format!("{long}l")), Err(Error::BadName));
    assert_eq!(pool.entries()?, before);
    pool.rename("p/a", &long)?;
    assert_eq!(pool.read(&format!("{long}/x@u"), 0, 0)?, Some([99; 512]));
    Ok(())
}

/// The limits above the new name are asked. The first block of a file system takes six blocks.
fn rename_within_limits() -> Outcome {
    let mut pool = Pool::create(5, 1000)?;
    for name in ["p/a", "p/a/x", "p/q"] {
        pool.create_file_system(name)?;
    }
    pool.write("p/a/x", 0, 0, &[97; 512])?;
    pool.set("p/a", Limit::Reservation, 995 * 512)?;
    pool.set("p/q", Limit::Quota, 5 * 512)?;
    assert_eq!(pool.rename("p/a/x", "p/q/x"), Err(Error::Quota));
    assert_eq!(pool.rename("p/a/x", "p/x"), Err(Error::NoSpace));
    expect(&mut pool, "list", "p p/a p/a/x p/q")?;
    pool.set("p/a", Limit::Reservation, 994 * 512)?;
    pool.rename("p/a/x", "p/x")?;
    expect(&mut pool, "get available p", "0")?;
    pool.set("p/a", Limit::Reservation, 0)?;
    pool.set("p/q", Limit::Quota, 6 * 512)?;
    pool.rename("p/x", "p/q/x")?;
    expect(&mut pool, "get available p/q", "0")
}

/// The pool of `with_a_family`, and also p/a/x/y with p/a/x/y@s, and p/c@s: p/a/x has no snapshot of that name.
fn with_a_gap() -> Result<Pool, Box<dyn StdError>> {
    let mut pool = with_a_family()?;
    pool.create_file_system("p/a/x/y")?;
    pool.write("p/a/x/y", 0, 0, &[100; 512])?;
    pool.snapshot("p/a/x/y@s", false)?;
    pool.snapshot("p/c@s", false)?;
    Ok(pool)
}

/// A rename of a snapshot changes its name alone, and with `recursive` the names of those below.
fn rename_snapshots() -> Outcome {
    let mut pool = with_a_gap()?;
    pool.hold("kept", "p/a@s")?;
    let sent = stream(&mut pool, "p/a@t", Some("p/a@s"))?;
    let before = pool.entries()?;
    pool.rename_snapshot("p/a@s", "u", false)?;
    expect(&mut pool, "list", "p p/a p/a@u p/a@t p/a#m p/a/x p/a/x@u p/a/x/y p/a/x/y@s p/c p/c@s")?;
    expect(&mut pool, "get origin p/c", "p/a@u")?;
    expect(&mut pool, "get clones p/a@u", "p/c")?;
    assert_eq!(pool.holds("p/a@u")?, ["kept"]);
    assert_eq!(pool.holds("p/a@s"), Err(Error::NoDataset));
    assert_eq!(pool.read("p/a@u", 0, 0)?, Some([97; 512]));
    assert_eq!(stream(&mut pool, "p/a@t", Some("p/a@u"))?, sent);
    pool.rename_snapshot("p/a@u", "s", false)?;
    assert_eq!(pool.entries()?, before);
    let view = pool.open_view("p/a/x@u")?;
    pool.rename_snapshot("p/a@s", "v", true)?;
    expect(&mut pool, "list", "p p/a p/a@v p/a@t p/a#m p/a/x p/a/x@u p/a/x/y p/a/x/y@v p/c p/c@s")?;
    expect(&mut pool, "get origin p/c", "p/a@v")?;
    assert_eq!(pool.holds("p/a@v")?, ["kept"]);
    for (name, byte) in [("p/a@v", 97), ("p/a@t", 98), ("p/a/x@u", 99), ("p/a/x/y@v", 100), ("p/c@s", 97)] {
        assert_eq!(pool.read(name, 0, 0)?, Some([byte; 512]), "{name}");
    }
    pool.close_view(view)?;
    pool.rename_snapshot("p/a@v", "s", true)?;
    assert_eq!(pool.entries()?, before);
    Ok(())
}

/// What refuses a rename of a snapshot, which has changed nothing then.
fn rename_of_a_snapshot_is_refused() -> Outcome {
    let mut pool = with_a_gap()?;
    pool.snapshot("p/a/x/y@w", false)?;
    let view = pool.open_view("p/a/x/y@s")?;
    let before = pool.entries()?;
    let [long, long_below] = ["p/a@", "p/a/x/y@"].map(|above| "l".repeat(255 - above.len()));
    let [longer, longer_below] = [&long, &long_below].map(|name| format!("{name}l"));
    for (name, to, recursive, error) in [
        ("p/a@none", "v", false, Error::NoDataset),
        ("p/none@s", "v", false, Error::NoDataset),
        ("p/a/x@s", "v", true, Error::NoDataset),
        ("p/a@s", &longer, false, Error::BadName),
        ("p/a@s", &longer_below, true, Error::BadName),
        ("p/a@s", "t", false, Error::Exists),
        ("p/a@s", "s", false, Error::Exists),
        ("p/a@s", "w", true, Error::Exists),
        ("p/a/x/y@s", "v", false, Error::Busy),
        ("p/a@s", "v", true, Error::Busy),
        ("p/a", "v", false, Error::BadName),
        ("p/a#m", "v", false, Error::BadName),
        ("p/a@s", "p/a@v", false, Error::BadName),
        ("p/a@s", "", false, Error::BadName),
        ("", "v", false, Error::BadName),
    ] {
        assert_eq!(pool.rename_snapshot(name, to, recursive), Err(error), "{name} {to}");
    }
    assert_eq!(pool.entries()?, before);
    pool.close_view(view)?;
    pool.rename_snapshot("p/a@s", &long_below, true)?;
    pool.rename_snapshot("p/a@t", &long, false)?;
    assert_eq!(pool.read(&format!("p/a/x/y@{long_below}"), 0, 0)?, Some([100; 512]));
    Ok(())
}

fn main() -> Outcome {
    let mut pool = Pool::create(1, 1000)?;
    pool.create_file_system("p/a")?;
    pool.write("p/a", 0, 0, &[97; 512])?;
    pool.snapshot("p/a@s", false)?;
    pool.write("p/a", 0, 1, &[98; 512])?;
    pool.snapshot("p/a@t", false)?;
    pool.clone_snapshot("p/a@s", "p/c")?;
    assert_eq!(pool.destroy("p/a@s", false, false), Err(Error::HasClones));
    pool.destroy("p/a@s", false, true)?;
    pool.promote("p/c")?;
    pool.bookmark("p/a@t", "p/a#m")?;
    expect(&mut pool, "list", "p p/a p/a@t p/a#m p/c p/c@s")?;
    let kinds: Vec<Kind> = pool.entries()?.iter().map(|entry| entry.kind).collect();
    assert_eq!(kinds, [Kind::FileSystem, Kind::FileSystem, Kind::Snapshot, Kind::Bookmark, Kind::FileSystem, Kind::Snapshot]);
    for entry in pool.entries()? {
        for (word, value) in [("guid", entry.guid), ("createtxg", entry.group), ("used", entry.used), ("referenced", entry.referenced)] {
            expect(&mut pool, &format!("get {word} {}", entry.name), &value.map_or("-".to_string(), |value| value.to_string()))?;
        }
    }
    pool.hold("one", "p/a@t")?;
    pool.hold("two", "p/a@t")?;
    assert_eq!(pool.holds("p/a@t")?, ["one", "two"]);
    pool.release("one", "p/a@t")?;
    expect(&mut pool, "holds p/a@t", "two")?;
    let view = pool.open_view("p/a@t")?;
    pool.close_view(view)?;
    assert_eq!(pool.close_view(view), Err(Error::NoView));
    pool.set("p/a", Limit::Quota, 51_200)?;
    expect(&mut pool, "get quota p/a", "51200")?;
    assert_eq!(pool.set("p/a", Limit::Quota, 1), Err(Error::BadAmount));
    let written = pool.written_since("p/a", "p/c@s")?;
    expect(&mut pool, "get written@p/c@s p/a", &written.to_string())?;
    let freed = pool.would_free("p/a", "t", "t")?;
    expect(&mut pool, "wouldfree p/a t t", &freed.to_string())?;
    let size = pool.pool_get(PoolProperty::Size)?;
    expect(&mut pool, "pget size", &size.to_string())?;
    pool.write("p/a", 1, 0, &[99; 512])?;
    pool.free_object("p/a", 1)?;
    expect(&mut pool, "read p/a 1 0", "hole")?;
    pool.write("p/a", 1, 0, &[99; 512])?;
    pool.rollback("p/a@t", false)?;
    expect(&mut pool, "read p/a 1 0", "hole")?;
    receive_in_modes(&mut pool)?;
    destroy_several()?;
    rename_a_family()?;
    rename_is_refused()?;
    rename_within_limits()?;
    rename_snapshots()?;
    rename_of_a_snapshot_is_refused()?;
    println!("typed: each call tells what its line tells");
    Ok(())
}
