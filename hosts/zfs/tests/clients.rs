//! Many clients, and clients that don't keep to the protocol.

mod common;
use common::{answer, send_with_descriptors, World};
use std::io::{Read, Write};
use std::net::Shutdown;
use std::os::unix::fs::{MetadataExt, PermissionsExt};
use std::os::unix::net::UnixStream;
use std::process::Stdio;
use std::time::Duration;
use std::{fs, thread};

const VERSION: &str = "yuzfront-2";

/// A request's words, each with a zero after it.
fn words(words: &[&str]) -> Vec<u8> {
    words.iter().flat_map(|word| word.bytes().chain([0])).collect()
}

fn list() -> Vec<u8> {
    words(&[VERSION, "1800000000", "/", "zfs", "", "", "", "list"])
}

fn framed(bytes: &[u8]) -> Vec<u8> {
    [&(bytes.len() as u32).to_le_bytes(), bytes].concat()
}

#[test]
fn the_socket_is_the_users_own() {
    let world = World::new();
    let socket = fs::metadata(world.socket()).unwrap();
    assert_eq!(socket.permissions().mode() & 0o777, 0o600);
    let folder = fs::metadata(&world.folder).unwrap();
    assert_eq!(folder.uid(), socket.uid());
}

#[test]
fn two_hundred_clients_are_answered_at_once() {
    let world = World::with_pool();
    let children: Vec<_> = (0..200)
        .map(|k| {
            let line = if k % 2 == 0 { format!("create tank/f{k}") } else { "list -H -r tank".to_owned() };
            world.command("zfs", line.split(' ')).stdout(Stdio::null()).stderr(Stdio::piped()).spawn().unwrap()
        })
        .collect();
    for child in children {
        let output = child.wait_with_output().unwrap();
        assert!(output.status.success(), "{}", String::from_utf8_lossy(&output.stderr));
    }
    assert_eq!(world.run("zfs list -H -r -o name tank").lines().count(), 101);
}

#[test]
fn two_hundred_that_say_nothing_hold_nobody_up() {
    let world = World::with_pool();
    let silent: Vec<_> = (0..200).map(|_| UnixStream::connect(world.socket()).unwrap()).collect();
    world.run("zfs create tank/a");
    drop(silent);
    world.run("zfs destroy tank/a");
}

#[test]
fn a_bad_frame_ends_that_client_alone() {
    let mut world = World::with_pool();
    let list = list();
    let long = vec![b'x'; 5 << 20];
    let frames: Vec<(&str, Vec<u8>, usize)> = vec![
        ("no descriptors", framed(&list), 0),
        ("one descriptor", framed(&list), 1),
        ("an empty one", framed(b""), 3),
        ("no zero at the end", framed(&list[..list.len() - 1]), 3),
        ("another version", framed(&words(&["yuzfront-0", "1", "/", "zfs", "", "", "", "list"])), 3),
        ("no clock", framed(&words(&[VERSION, "soon", "/", "zfs", "", "", "", "list"])), 3),
        ("another program", framed(&words(&[VERSION, "1", "/", "cat", "", "", "", "x"])), 3),
        ("the longest length", u32::MAX.to_le_bytes().to_vec(), 3),
        ("too long a one", framed(&long), 3),
        ("three bytes of a length", vec![1, 0, 0], 3),
        ("half of what was said", [&(list.len() as u32 * 2).to_le_bytes(), &list[..]].concat(), 3),
    ];
    for (what, frame, count) in frames {
        let mut socket = UnixStream::connect(world.socket()).unwrap();
        // The daemon may end the connection before it has read all.
        if let Ok(sent) = send_with_descriptors(&socket, &frame, count) {
            let _ = socket.write_all(&frame[sent..]);
        }
        let _ = socket.shutdown(Shutdown::Write);
        assert_eq!(answer(&mut socket), b"", "{what}");
        assert!(world.is_alive(), "{what}");
        world.run("zfs list tank");
    }
}

#[test]
fn a_good_frame_is_answered_by_one_byte() {
    let world = World::with_pool();
    let mut socket = UnixStream::connect(world.socket()).unwrap();
    let frame = framed(&list());
    assert_eq!(send_with_descriptors(&socket, &frame, 3).unwrap(), frame.len());
    assert_eq!(answer(&mut socket), [0]);
}

#[test]
fn a_cut_connection_ends_that_client_alone() {
    let mut world = World::with_pool();
    let frame = framed(&list());
    for end in 0..frame.len() {
        let socket = UnixStream::connect(world.socket()).unwrap();
        if end > 0 {
            send_with_descriptors(&socket, &frame[..end], 3).unwrap();
        }
        drop(socket);
    }
    assert!(world.is_alive());
    world.run("zfs create tank/a");
}

#[test]
fn a_client_that_is_killed_cuts_its_receive() {
    let world = World::with_pool();
    world.run("zfs create tank/a
        zfs yuz-write tank/a 0 0 200 61
        zfs snapshot tank/a@one");
    let stream = world.stream(&["tank/a@one"]);
    let mut child = world.command("zfs", ["receive", "tank/b"]).stdin(Stdio::piped()).spawn().unwrap();
    let mut pipe = child.stdin.take().unwrap();
    pipe.write_all(&stream[..stream.len() / 2]).unwrap();
    child.kill().unwrap();
    child.wait().unwrap();
    // The daemon's end of the pipe closes with the client.
    let began = std::time::Instant::now();
    while pipe.write_all(&[0; 4096]).is_ok() {
        assert!(began.elapsed() < Duration::from_secs(20), "the daemon still reads");
        thread::sleep(Duration::from_millis(5));
    }
    assert_eq!(world.line("zfs list tank/b").status, 1);
    world.run("zfs create tank/b");
}

#[test]
fn a_reader_that_goes_ends_its_send() {
    let world = World::with_pool();
    world.run("zfs create tank/a
        zfs yuz-write tank/a 0 0 4000 61
        zfs snapshot tank/a@one");
    let mut child = world.command("zfs", ["send", "tank/a@one"]).stdout(Stdio::piped()).stderr(Stdio::null()).spawn().unwrap();
    let mut first = [0; 1000];
    child.stdout.take().unwrap().read_exact(&mut first).unwrap();
    assert!(!child.wait().unwrap().success());
    world.run("zfs destroy -r tank/a");
}

/// xorshift64: the same frames in each run.
struct Random(u64);

impl Random {
    fn below(&mut self, limit: usize) -> usize {
        self.0 ^= self.0 << 13;
        self.0 ^= self.0 >> 7;
        self.0 ^= self.0 << 17;
        (self.0 % limit as u64) as usize
    }
}

/// A frame that is nearly right: a few bytes are changed, taken out or put in, or the words are others.
fn nearly(random: &mut Random) -> Vec<u8> {
    const WORDS: [&str; 24] = ["list", "get", "create", "destroy", "snapshot", "send", "receive", "-r", "-H", "-p", "-o", "-t", "all", "tank", "tank/a", "tank/a@s",
        "tank/a#b", "@", "%", ",,", "", "-", "--", "name,used"];
    let count = random.below(6);
    let arguments: Vec<&str> = (0..count).map(|_| WORDS[random.below(WORDS.len())]).collect();
    let program = ["zfs", "zpool"][random.below(2)];
    let mut frame = framed(&words(&[&[VERSION, "1800000000", "/", program, "", ""], &arguments[..]].concat()));
    for _ in 0..random.below(4) {
        let at = random.below(frame.len());
        match random.below(3) {
            0 => frame[at] = random.below(256) as u8,
            1 => frame.insert(at, random.below(256) as u8),
            _ => drop(frame.remove(at)),
        }
    }
    frame
}

#[test]
fn no_frame_ends_the_daemon() {
    let mut world = World::with_pool();
    world.run("zfs create tank/a");
    let mut random = Random(0x5eed);
    for round in 0..2000 {
        let frame = nearly(&mut random);
        let count = if random.below(8) == 0 { random.below(6) } else { 3 };
        let mut socket = UnixStream::connect(world.socket()).unwrap();
        let _ = send_with_descriptors(&socket, &frame, count);
        let _ = socket.shutdown(Shutdown::Write);
        let answer = answer(&mut socket);
        assert!(answer.len() <= 1, "round {round}: {answer:?}");
        assert!(world.is_alive(), "round {round}: {frame:?}");
    }
    world.run("zpool list");
}
