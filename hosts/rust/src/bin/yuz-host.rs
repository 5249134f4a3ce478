//! A host in Rust: each command tries one thing of the library, says what it saw, and fails where that isn't what it should be.
//!
//! ```text
//! yuz-host session SCRIPT REPLIES     answers the lines of a script, and compares the replies
//! yuz-host calls                      makes each call of the library, and compares what it tells
//! yuz-host writes COUNT               writes so many blocks of 512 bytes, and prints the seconds
//! yuz-host apply COUNT                writes as many and does nothing else, as `workloads apply`: bench/hosts.py times it
//! yuz-host streams                    sends a snapshot from one pool, and receives it in another
//! yuz-host memory                     refuses each request for memory of each call in turn
//! yuz-host threads                    hands pools from thread to thread, and shares one under a lock
//! ```

use std::error::Error as StdError;
use std::ffi::c_void;
use std::io::{copy, Read, Write};
use std::mem::forget;
use std::sync::atomic::{AtomicUsize, Ordering::Relaxed};
use std::sync::Mutex;
use std::time::Instant;
use std::{env, fs, thread};
use yuzgont::{random_id, Error, Pool, Property, Reply};

type Outcome = Result<(), Box<dyn StdError>>;

/// Which request for memory is refused: the first is 1, and 0 refuses none. The linker puts the two functions in the place of malloc and
/// realloc.
static REFUSED_AT: AtomicUsize = AtomicUsize::new(0);
static REQUESTS: AtomicUsize = AtomicUsize::new(0);

extern "C" {
    fn __real_malloc(size: usize) -> *mut c_void;
    fn __real_realloc(block: *mut c_void, size: usize) -> *mut c_void;
}

fn is_refused_now() -> bool {
    REQUESTS.fetch_add(1, Relaxed) + 1 == REFUSED_AT.load(Relaxed)
}

#[no_mangle]
unsafe extern "C" fn __wrap_malloc(size: usize) -> *mut c_void {
    if is_refused_now() { std::ptr::null_mut() } else { __real_malloc(size) }
}

#[no_mangle]
unsafe extern "C" fn __wrap_realloc(block: *mut c_void, size: usize) -> *mut c_void {
    if is_refused_now() { std::ptr::null_mut() } else { __real_realloc(block, size) }
}

/// What a call answers while one request for memory is refused, or none where it makes fewer.
fn refusing<T>(at: usize, call: impl FnOnce() -> Result<T, Error>) -> Option<Result<T, Error>> {
    REQUESTS.store(0, Relaxed);
    REFUSED_AT.store(at, Relaxed);
    let outcome = call();
    REFUSED_AT.store(0, Relaxed);
    (REQUESTS.load(Relaxed) >= at).then_some(outcome)
}

/// Each property, and its name in a line.
const PROPERTIES: [(Property, &str); 15] = [
    (Property::Used, "used"),
    (Property::Available, "available"),
    (Property::Referenced, "referenced"),
    (Property::Written, "written"),
    (Property::UsedByDataset, "usedbydataset"),
    (Property::UsedBySnapshots, "usedbysnapshots"),
    (Property::UsedByChildren, "usedbychildren"),
    (Property::UsedByRefReservation, "usedbyrefreservation"),
    (Property::Quota, "quota"),
    (Property::RefQuota, "refquota"),
    (Property::Reservation, "reservation"),
    (Property::RefReservation, "refreservation"),
    (Property::Guid, "guid"),
    (Property::CreateTxg, "createtxg"),
    (Property::UserRefs, "userrefs"),
];

fn session(script: &str, replies: &str) -> Outcome {
    let mut pool = Pool::create(1, 1000)?;
    let mut told = Vec::new();
    for line in fs::read_to_string(script)?.lines() {
        told.extend(pool.line(line)?.text);
    }
    if told != fs::read(replies)? {
        return Err("other replies than wanted".into());
    }
    println!("session {script}: {} bytes of replies, as wanted", told.len());
    Ok(())
}

/// How many blocks the pools have that so many are written to.
const BLOCKS: u32 = 4_194_304;

/// The same writes as `workloads apply`.
fn write_numbers(pool: &mut Pool, count: u64) -> Result<(), Error> {
    for number in 0..count {
        let leaf = (number * 7919 % 1_048_576) as u32;
        pool.write("p", leaf / 4096, leaf % 4096, &[(number % 251) as u8; 512])?;
    }
    Ok(())
}

fn writes(count: u64) -> Outcome {
    let mut pool = Pool::create(1, BLOCKS)?;
    let begin = Instant::now();
    write_numbers(&mut pool, count)?;
    println!("writes: {count} of 512 bytes in {:.3} s", begin.elapsed().as_secs_f64());
    Ok(())
}

/// The pool isn't freed there either, since the program ends.
fn apply(count: u64) -> Outcome {
    let mut pool = Pool::create(1, BLOCKS)?;
    write_numbers(&mut pool, count)?;
    forget(pool);
    println!("{count}");
    Ok(())
}

/// The property of each number is what a line tells of its name, `-` where the dataset has none.
fn expect_properties(pool: &mut Pool, name: &str) -> Outcome {
    for (property, word) in PROPERTIES {
        let told = match pool.get(name, property) {
            Ok(value) => format!("{value}\n"),
            Err(Error::NotApplicable) => "-\n".into(),
            Err(error) => return Err(error.into()),
        };
        assert_eq!(String::from_utf8(pool.line(&format!("get {word} {name}"))?.text)?, told, "{word} of {name}");
    }
    Ok(())
}

fn expect_done(pool: &mut Pool, lines: &[&str]) -> Outcome {
    for line in lines {
        assert_eq!(pool.line(line)?, Reply { text: b"ok\n".to_vec(), is_refused: false }, "{line}");
    }
    Ok(())
}

fn calls() -> Outcome {
    let mut pool = Pool::create(1, 1000)?;
    pool.write("p", 0, 0, &[97; 512])?;
    let group = pool.sync()?;
    pool.punch("p", 0, 0)?;
    assert_eq!(pool.read("p", 0, 0)?, None);
    pool.abandon()?;
    assert_eq!(pool.read("p", 0, 0)?, Some([97; 512]));
    assert_eq!(pool.sync()?, group + 1);
    expect_done(&mut pool, &["create p/a", "set quota=102400 p", "set refquota=51200 p", "set reservation=20480 p", "set refreservation=10240 p"])?;
    expect_done(&mut pool, &["set reservation=2048 p/a", "write p/a 0 0 61"])?;
    pool.snapshot("p@s", true)?;
    expect_done(&mut pool, &["hold kept p@s", "write p 0 0 62"])?;
    for name in ["p", "p/a", "p@s"] {
        expect_properties(&mut pool, name)?;
    }
    let bytes = sent(&mut pool, "p@s", None)?;
    let mut receiver = pool.receive("p/copy@s", false);
    receiver.write_all(&bytes)?;
    receiver.finish()?;
    assert_eq!(pool.read("p/copy", 0, 0)?, Some([97; 512]));
    expect_done(&mut pool, &["release kept p@s", "destroy p@s"])?;
    assert_eq!(pool.slice(1)?, 1);
    assert!(pool.slice(1000)? > 0);
    assert_eq!(pool.slice(1000)?, 0);
    println!("calls: each tells what it should");
    Ok(())
}

/// A pool with this block, a snapshot of it and a newer block.
fn prepared(byte: u8) -> Result<Pool, Error> {
    let mut pool = Pool::create(1, 1000)?;
    pool.write("p", 0, 0, &[byte; 512])?;
    pool.snapshot("p@monday", false)?;
    pool.sync()?;
    pool.write("p", 0, 0, &[byte + 1; 512])?;
    Ok(pool)
}

fn sent(pool: &mut Pool, name: &str, from: Option<&str>) -> Result<Vec<u8>, Box<dyn StdError>> {
    let mut bytes = Vec::new();
    let mut stream = pool.send(name, from)?;
    stream.read_to_end(&mut bytes)?;
    assert_eq!(bytes.len(), stream.size());
    Ok(bytes)
}

fn streams() -> Outcome {
    let mut live = prepared(97)?;
    let mut backup = Pool::create(2, 1000)?;
    live.snapshot("p@tuesday", false)?;
    let full = sent(&mut live, "p@monday", None)?;
    let mut cut = backup.receive("p/copy@monday", false);
    cut.write_all(&full[..full.len() / 2])?;
    assert_eq!(cut.finish(), Err(Error::BadStream));
    let mut whole = backup.receive("p/copy@monday", false);
    whole.write_all(&full)?;
    whole.finish()?;
    // From one pool into the other, by pieces.
    let mut next = backup.receive("p/copy@tuesday", false);
    let size = copy(&mut live.send("p@tuesday", Some("p@monday"))?, &mut next)?;
    next.finish()?;
    assert_eq!(backup.read("p/copy", 0, 0)?, Some([98; 512]));
    assert_eq!(backup.read("p/copy@monday", 0, 0)?, Some([97; 512]));
    assert_eq!(backup.get("p/copy@tuesday", Property::Guid)?, live.get("p@tuesday", Property::Guid)?);
    println!("streams: {} bytes in full, {size} from the snapshot before it, received", full.len());
    Ok(())
}

/// All that lines tell of a pool that the calls below change.
fn told(pool: &mut Pool) -> Result<Vec<u8>, Error> {
    let lines = ["list", "get used p", "get written p", "pget group", "pget allocated", "pget freeing", "read p 0 0", "read p 0 1", "send p@monday"];
    lines.iter().try_fold(Vec::new(), |mut text, line| {
        text.extend(pool.line(line)?.text);
        Ok(text)
    })
}

type Call = fn(&mut Pool, &[u8]) -> Result<(), Error>;

const CALLS: [(&str, Call); 13] = [
    ("write", |pool, _| pool.write("p", 0, 1, &[7; 512])),
    ("read", |pool, _| pool.read("p", 0, 0).map(drop)),
    ("punch", |pool, _| pool.punch("p", 0, 0)),
    ("snapshot", |pool, _| pool.snapshot("p@tuesday", true)),
    ("sync", |pool, _| pool.sync().map(drop)),
    ("slice", |pool, _| pool.slice(3).map(drop)),
    ("abandon", |pool, _| pool.abandon()),
    ("get", |pool, _| pool.get("p@monday", Property::Used).map(drop)),
    ("list", |pool, _| pool.line("list").map(drop)),
    // A line that changes something. Want of memory is the call's answer, or the reply's.
    ("line", |pool, _| {
        let reply = pool.line("create p/new")?;
        match &reply.text[..] {
            b"ok\n" => Ok(()),
            b"error 25 NoMemory\n" => Err(Error::NoMemory),
            other => panic!("{other:?}"),
        }
    }),
    ("send", |pool, _| pool.send("p@monday", None).map(drop)),
    ("stream", |pool, _| pool.send("p@monday", None)?.read(&mut [0; 64]).map(drop).map_err(|_| Error::NoMemory)),
    ("receive", |pool, bytes| {
        let mut receiver = pool.receive("p/copy@monday", false);
        receiver.write_all(bytes).map_err(|_| Error::NoMemory)?;
        receiver.finish()
    }),
];

/// A create that is refused memory makes no pool, and its handle is let go as one that has none.
fn create_refused() -> Outcome {
    let mut at = 1;
    while let Some(outcome) = refusing(at, || Pool::create(1, 1000).map(drop)) {
        assert_eq!(outcome, Err(Error::NoMemory));
        at += 1;
    }
    println!("memory: create, {} requests refused", at - 1);
    Ok(())
}

fn memory() -> Outcome {
    create_refused()?;
    let full = sent(&mut prepared(97)?, "p@monday", None)?;
    for (what, call) in CALLS {
        let mut at = 1;
        loop {
            let mut pool = prepared(97)?;
            let before = told(&mut pool)?;
            match refusing(at, || call(&mut pool, &full)) {
                None => break,
                Some(Ok(())) => {}
                Some(Err(Error::NoMemory)) => {
                    assert!(told(&mut pool)? == before, "a refused {what} has changed something");
                    call(&mut pool, &full)?;
                }
                Some(Err(error)) => return Err(error.into()),
            }
            at += 1;
        }
        println!("memory: {what}, {} requests refused, nothing changed", at - 1);
    }
    Ok(())
}

/// Pools that are made in one thread, written to in others and let go in a third, each with blocks of its own; and one that all write to.
fn threads() -> Outcome {
    let pools = (0..4).map(|_| Pool::new(1000)).collect::<Result<Vec<_>, _>>()?;
    let shared = Mutex::new(Pool::new(1000)?);
    let written = thread::scope(|scope| {
        let works: Vec<_> = pools.into_iter().enumerate().map(|(at, pool)| scope.spawn({
            let shared = &shared;
            move || work(at as u32, pool, shared)
        })).collect();
        works.into_iter().map(|it| it.join().expect("a thread")).collect::<Result<Vec<_>, Error>>()
    })?;
    for (at, mut pool) in written.into_iter().enumerate() {
        thread::spawn(move || {
            assert_eq!(pool.read("p", 0, 99), Ok(Some([at as u8; 512])));
            assert_eq!(pool.get("p@s", Property::Guid), Ok(u64::from(pool.id()) << 32 | 1));
        })
        .join()
        .expect("a thread");
        assert_eq!(shared.lock().expect("no thread ended within a call").read("p", at as u32, 99), Ok(Some([at as u8; 512])));
    }
    assert!(random_id() != 0);
    println!("threads: four pools in nine threads, and one under a lock");
    Ok(())
}

fn work(at: u32, mut pool: Pool, shared: &Mutex<Pool>) -> Result<Pool, Error> {
    for block in 0..100 {
        pool.write("p", 0, block, &[at as u8; 512])?;
        shared.lock().expect("no thread ended within a call").write("p", at, block, &[at as u8; 512])?;
    }
    pool.snapshot("p@s", false)?;
    Ok(pool)
}

fn main() -> Outcome {
    let words: Vec<String> = env::args().skip(1).collect();
    match words.iter().map(String::as_str).collect::<Vec<_>>()[..] {
        ["session", script, replies] => session(script, replies),
        ["calls"] => calls(),
        ["writes", count] => writes(count.parse()?),
        ["apply", count] => apply(count.parse()?),
        ["streams"] => streams(),
        ["memory"] => memory(),
        ["threads"] => threads(),
        _ => Err("usage: yuz-host session SCRIPT REPLIES | calls | writes COUNT | apply COUNT | streams | memory | threads".into()),
    }
}
