//! Backup over a connection: a live pool in one process, a backup pool in another, and a socket between them.
//!
//! ```text
//! yuz-replicate backup                        listens on the loopback, prints its address, and receives until a live pool says it is done
//! yuz-replicate live ADDRESS ROUNDS [CUT]     writes, and ROUNDS times makes a snapshot and sends it; in round CUT the connection is cut
//! yuz-replicate try                           both, five rounds, the second of them cut
//! ```
//!
//! The live pool keeps a bookmark of what the backup has, and sends what is younger; the snapshot itself may go. A message is a letter, a
//! name and bytes, each with its length before it; the answer is a number: of a stream what the receive answered, of a question the sum.

use std::error::Error as StdError;
use std::io::{self, copy, Read, Write};
use std::net::{Shutdown, TcpListener, TcpStream};
use std::process::{Command, Stdio};
use std::time::{Duration, Instant};
use std::{env, thread};
use yuzgont::{Error, Pool, Property};

type Outcome<T = ()> = Result<T, Box<dyn StdError>>;

const STREAM: u8 = b's';
const SUM: u8 = b'?';
const END: u8 = b'.';

/// How many blocks the live file system has, and how long it is written to between two sends.
const BLOCKS: u32 = 4096;
const PAUSE: Duration = Duration::from_millis(200);

/// How many bytes of a stream are sent at once, and of how many a stream has to be to show how far it is.
const PIECE: u64 = 1 << 18;
const LONG: u64 = 1 << 20;

fn write_head(to: &mut TcpStream, letter: u8, name: &str, size: u64) -> io::Result<()> {
    to.write_all(&[letter])?;
    to.write_all(&(name.len() as u64).to_be_bytes())?;
    to.write_all(&size.to_be_bytes())?;
    to.write_all(name.as_bytes())
}

fn read_number(from: &mut TcpStream) -> io::Result<u64> {
    let mut bytes = [0; 8];
    from.read_exact(&mut bytes)?;
    Ok(u64::from_be_bytes(bytes))
}

/// A sum of all blocks of a dataset.
fn sum_of(pool: &mut Pool, name: &str) -> Result<u64, Error> {
    let mut sum: u64 = 0xcbf2_9ce4_8422_2325;
    for block in 0..BLOCKS {
        for byte in pool.read(name, 0, block)?.unwrap_or([0; 512]) {
            sum = (sum ^ u64::from(byte)).wrapping_mul(0x100_0000_01b3);
        }
    }
    Ok(sum)
}

/// Asks a line that has to be done.
fn ask(pool: &mut Pool, line: &str) -> Outcome<String> {
    let reply = pool.line(line)?;
    let text = String::from_utf8(reply.text)?;
    if reply.is_refused { Err(format!("{line}: {text}").into()) } else { Ok(text) }
}

// The backup.

/// Receives a stream of so many bytes, or what comes of it before the connection ends, and answers with the number of what became of it.
fn receive(pool: &mut Pool, name: &str, from: &mut TcpStream, size: u64) -> Outcome {
    let before = ask(pool, "list")?;
    let mut receiver = pool.receive(name, false);
    let came = copy(&mut from.take(size), &mut receiver)?;
    let code = match receiver.finish() {
        Ok(()) => 0,
        Err(error) => {
            println!("backup: {name}: {came} of {size} bytes: error {error}");
            assert!(ask(pool, "list")? == before, "a refused receive has changed something");
            error.code() as u64
        }
    };
    if came == size {
        from.write_all(&code.to_be_bytes())?;
    }
    Ok(())
}

/// Serves one connection. Says whether the live pool is done.
fn serve(pool: &mut Pool, from: &mut TcpStream) -> Outcome<bool> {
    let mut letter = [0];
    while from.read(&mut letter)? == 1 {
        let (length, size) = (read_number(from)?, read_number(from)?);
        let mut name = String::new();
        from.take(length).read_to_string(&mut name)?;
        match letter[0] {
            STREAM => receive(pool, &name, from, size)?,
            SUM => from.write_all(&sum_of(pool, &name)?.to_be_bytes())?,
            END => return Ok(true),
            other => return Err(format!("a message of kind {other}").into()),
        }
    }
    Ok(false)
}

fn backup() -> Outcome {
    let listener = TcpListener::bind("127.0.0.1:0")?;
    println!("{}", listener.local_addr()?);
    let mut pool = Pool::new(100_000)?;
    while !serve(&mut pool, &mut listener.accept()?.0)? {}
    let snapshots = ask(&mut pool, "list")?.split_whitespace().filter(|name| name.contains('@')).count();
    println!("backup: has {snapshots} snapshots, and uses {} bytes", pool.get("p", Property::Used)?);
    Ok(())
}

// The live pool.

struct Live {
    pool: Pool,
    written: u64,
    has_sent: bool,
}

impl Live {
    /// Writes here and there for a while; a first round writes every block.
    fn write(&mut self) -> Result<(), Error> {
        let end = Instant::now() + PAUSE;
        while Instant::now() < end || self.written < u64::from(BLOCKS) {
            let block = (self.written * 2477 % u64::from(BLOCKS)) as u32;
            self.pool.write("p/live", 0, block, &[(self.written % 251) as u8; 512])?;
            self.written += 1;
        }
        self.pool.sync()?;
        Ok(())
    }

    /// Sends a snapshot, from the bookmark of the last one, and gives the backup's answer. With `cut` the connection ends half way.
    fn send(&mut self, to: &mut TcpStream, name: &str, copy_name: &str, cut: bool) -> Outcome<u64> {
        let mut stream = self.pool.send(name, self.has_sent.then_some("p/live#sent"))?;
        let size = stream.size() as u64;
        write_head(to, STREAM, copy_name, size)?;
        let mut sent = 0;
        while sent < size {
            if cut && sent >= size / 2 {
                to.shutdown(Shutdown::Both)?;
                return Err(format!("{name}: cut after {sent} of {size} bytes").into());
            }
            sent += copy(&mut (&mut stream).take(PIECE), to)?;
            if size > LONG {
                eprint!("\rlive: {name}: {sent} of {size} bytes{}", if sent < size { "" } else { "\n" });
            }
        }
        Ok(read_number(to)?)
    }

    /// A round: writes, makes a snapshot, and sends it until the backup has it. A connection that is cut is made anew.
    fn round(&mut self, to: &mut TcpStream, number: u32, mut cut: bool) -> Outcome {
        let (name, copy_name) = (format!("p/live@{number}"), format!("p/copy@{number}"));
        self.write()?;
        self.pool.snapshot(&name, false)?;
        loop {
            match self.send(to, &name, &copy_name, cut) {
                Ok(0) => break,
                Ok(code) => return Err(format!("{name}: the backup answers {code}").into()),
                Err(why) if cut => {
                    println!("live: {why}; sends again");
                    *to = TcpStream::connect(to.peer_addr()?)?;
                    cut = false;
                }
                Err(why) => return Err(why),
            }
        }
        write_head(to, SUM, &copy_name, 0)?;
        if read_number(to)? != sum_of(&mut self.pool, &name)? {
            return Err(format!("{name}: the backup has other blocks").into());
        }
        // What was sent is kept as a bookmark alone.
        if self.has_sent {
            ask(&mut self.pool, "destroy p/live#sent")?;
        }
        ask(&mut self.pool, &format!("bookmark {name} p/live#sent"))?;
        ask(&mut self.pool, &format!("destroy {name}"))?;
        self.has_sent = true;
        println!("live: {name} sent, after {} writes in all", self.written);
        Ok(())
    }
}

fn live(address: &str, rounds: u32, cut: u32) -> Outcome {
    let mut to = TcpStream::connect(address)?;
    let mut live = Live { pool: Pool::new(100_000)?, written: 0, has_sent: false };
    ask(&mut live.pool, "create p/live")?;
    for number in 1..=rounds {
        live.round(&mut to, number, number == cut)?;
    }
    write_head(&mut to, END, "", 0)?;
    Ok(())
}

/// Both, as two processes.
fn try_both() -> Outcome {
    let program = env::current_exe()?;
    let mut backup = Command::new(&program).arg("backup").stdout(Stdio::piped()).spawn()?;
    let mut out = io::BufReader::new(backup.stdout.take().ok_or("no output")?);
    let mut address = String::new();
    io::BufRead::read_line(&mut out, &mut address)?;
    let rest = thread::spawn(move || copy(&mut out, &mut io::stdout()));
    let is_live_done = Command::new(&program).args(["live", address.trim(), "5", "2"]).status()?.success();
    if !is_live_done {
        backup.kill()?;
    }
    let is_backup_done = backup.wait()?.success();
    rest.join().map_err(|_| "the backup's output")??;
    if is_live_done && is_backup_done { Ok(()) } else { Err("a process failed".into()) }
}

fn main() -> Outcome {
    let words: Vec<String> = env::args().skip(1).collect();
    match words.iter().map(String::as_str).collect::<Vec<_>>()[..] {
        ["backup"] => backup(),
        ["live", address, rounds] => live(address, rounds.parse()?, 0),
        ["live", address, rounds, cut] => live(address, rounds.parse()?, cut.parse()?),
        ["try"] => try_both(),
        _ => Err("usage: yuz-replicate backup | live ADDRESS ROUNDS [CUT] | try".into()),
    }
}
