//! A daemon that is killed.

mod common;
use common::World;
use std::io::{Read, Write};
use std::process::Stdio;

#[test]
fn a_killed_sender_leaves_no_half_stream_to_a_receiver() {
    let mut from = World::with_pool();
    let to = World::with_pool();
    from.run("zfs create tank/a");
    for object in 0..5 {
        from.run(&format!("zfs yuz-write tank/a {object} 0 4000 61"));
    }
    from.run("zfs snapshot tank/a@one");
    let whole = from.stream(&["tank/a@one"]).len();
    let mut sender = from.command("zfs", ["send", "tank/a@one"]).stdout(Stdio::piped()).stderr(Stdio::null()).spawn().unwrap();
    let mut receiver = to.command("zfs", ["receive", "tank/a"]).stdin(Stdio::piped()).stdout(Stdio::piped()).stderr(Stdio::piped()).spawn().unwrap();
    let mut half = vec![0; whole / 3];
    let mut stream = sender.stdout.take().unwrap();
    stream.read_exact(&mut half).unwrap();
    from.kill();
    let mut pipe = receiver.stdin.take().unwrap();
    let _ = pipe.write_all(&half);
    let mut rest = Vec::new();
    stream.read_to_end(&mut rest).unwrap();
    let _ = pipe.write_all(&rest);
    drop(pipe);
    assert!(half.len() + rest.len() < whole, "all of the stream was in the pipe");
    assert!(!sender.wait().unwrap().success());
    let said = receiver.wait_with_output().unwrap();
    assert_eq!(said.status.code(), Some(1), "{}", String::from_utf8_lossy(&said.stderr));
    assert_eq!(to.run("zfs list -H -r -t all -o name tank"), "tank\n");
}

#[test]
fn a_client_of_a_killed_daemon_fails() {
    let mut world = World::with_pool();
    let mut receiver = world.command("zfs", ["receive", "tank/a"]).stdin(Stdio::piped()).stderr(Stdio::piped()).spawn().unwrap();
    let pipe = receiver.stdin.take().unwrap();
    // Until it is answered the daemon has taken the one before, as clients are taken in turn.
    world.run("zfs list tank");
    world.kill();
    let said = receiver.wait_with_output().unwrap();
    drop(pipe);
    assert_ne!(said.status.code(), Some(0));
    let later = world.line("zfs list");
    assert_eq!(later.status, 1);
    assert!(later.err.starts_with("The ZFS modules are not loaded.\n"), "{later:?}");
}
