//! `zfs send`.

use super::walk;
use crate::call::Call;
use crate::failure::{Action, Failure, Outcome, Reason};
use crate::name;
use crate::options::{Long, Options};
use crate::property::Kinds;
use crate::size;
use crate::stream::format::{Head, MAGIC};
use crate::stream::plan::{Plan, PlannedStep, Wanted};
use crate::stream::token::Token;
use crate::sys;
use crate::usage::{Usage, ZfsCommand};
use crate::world::PoolThread;
use std::io::{self, Write};
use std::time::{Duration, Instant};

const USAGE: Usage = Usage::Zfs(ZfsCommand::Send);
const LETTERS: &str = ":i:I:RsDpVvnPLeht:cwbd:S";
const LONG: [Long; 16] = [
    ("replicate", 'R'), ("skip-missing", 's'), ("redact", 'd'), ("props", 'p'), ("parsable", 'P'), ("dedup", 'D'), ("verbose", 'v'),
    ("dryrun", 'n'), ("large-block", 'L'), ("embed", 'e'), ("resume", 't'), ("compressed", 'c'), ("raw", 'w'), ("backup", 'b'), ("holds", 'h'),
    ("saved", 'S'),
];

const NO_DEDUP: &str = "WARNING: deduplicated send is no longer supported.  A regular,\nnon-deduplicated stream will be generated.\n";

/// The bytes of a piece that is written at once, and how often progress is told.
const PIECE: usize = 1 << 16;
const TELLING: Duration = Duration::from_secs(1);

/// How the plan is told.
#[derive(Clone, Copy)]
struct Telling {
    is_verbose: bool,
    is_scripted: bool,
    is_dry: bool,
    shows_progress: bool,
}

pub fn run(call: &mut Call, words: &[String]) -> Outcome {
    let options = call.long_options(words, LETTERS, &LONG, USAGE)?;
    let telling = Telling {
        is_verbose: options.has('v') || options.has('P'),
        is_scripted: options.has('P'),
        is_dry: options.has('n'),
        shows_progress: options.has('v'),
    };
    if options.has('D') {
        call.output.error(NO_DEDUP);
    }
    check(&options)?;
    if options.has('d') || options.has('S') {
        return Err(Failure::Told("zfs send: redacted and saved sends are not supported here".into()));
    }
    if !telling.is_dry && call.is_output_terminal() {
        return Err(Failure::Told("Error: Stream can not be written to a terminal.\nYou must redirect standard output.".into()));
    }
    let (pool, plan) = match options.argument('t') {
        Some(token) => planned_by_token(call, token, telling)?,
        None => planned(call, &options)?,
    };
    plan.warnings.iter().for_each(|warning| call.output.error(warning));
    if telling.is_verbose {
        tell(call, &pool, &plan, telling)?;
    }
    if telling.is_dry { Ok(()) } else { write(call, &pool, plan, telling) }
}

fn check(options: &Options) -> Outcome {
    let usage = |reason: &str| Err(Failure::Usage(USAGE, reason.to_owned()));
    let sources = options.arguments('i').chain(options.arguments('I')).count();
    if options.argument('t').is_some() {
        let is_mixed = ['i', 'I', 'R', 'p', 'b', 'h', 'S', 'd'].into_iter().any(|letter| options.has(letter));
        return match options.operands.len() {
            _ if is_mixed => usage("invalid flags combined with -t"),
            0 => Ok(()),
            _ => usage("too many arguments"),
        };
    }
    if sources > 1 {
        return usage("");
    }
    match options.operands.len() {
        0 => usage("missing snapshot argument"),
        1 if options.has('s') && !options.has('R') => usage("skip-missing flag can only be used in conjunction with replicate"),
        1 => Ok(()),
        _ => usage("too many arguments"),
    }
}

fn planned_by_token(call: &mut Call, text: &str, telling: Telling) -> Outcome<(std::sync::Arc<PoolThread>, Plan)> {
    let token = Token::read(text).map_err(|corrupt| Failure::Cannot(Action::ResumeSend, Reason::Text(corrupt.to_string())))?;
    if telling.is_verbose {
        let contents = format!(
            "resume token contents:\nnvlist version: 0\n\tobject = 0x1\n\toffset = 0x0\n\tbytes = {:#x}\n\ttoguid = {:#x}\n\ttoname = {}",
            token.at, token.to_guid, token.to_name
        );
        if telling.is_dry { call.output.line(&contents) } else { call.output.error(&contents) }
    }
    let gone = || {
        let text = format!("'{}' used in the initial send no longer exists", token.to_name);
        Failure::Cannot(Action::ResumeSend, Reason::Text(text))
    };
    let pool = call.world.pool_of(&token.to_name).ok_or_else(gone)?;
    let plan = pool.run(move |host| host.plan_token(&token))??;
    Ok((pool, plan))
}

fn planned(call: &mut Call, options: &Options) -> Outcome<(std::sync::Arc<PoolThread>, Plan)> {
    let name = options.operands[0].clone();
    let source = options.argument('I').or_else(|| options.argument('i')).map(str::to_owned);
    let mut wanted = Wanted {
        name: name.clone(),
        from: None,
        with_between: options.has('I'),
        is_replication: options.has('R'),
        skips_missing: options.has('s'),
        with_properties: options.has('p'),
        is_backup: options.has('b'),
        with_holds: options.has('h'),
    };
    let is_package = wanted.is_replication || wanted.with_between;
    if is_package && !name.contains('@') {
        return Err(Failure::Told("Error: Unsupported flag with filesystem or bookmark.".into()));
    }
    wanted.from = match source {
        Some(source) if is_package => Some(package_source(call, &name, &source)?),
        Some(source) => Some(one_source(call, &name, source)),
        None => None,
    };
    let kinds = if is_package { Kinds::SNAPSHOT } else { Kinds::FVS };
    let pool = walk::open(call, &name, kinds)?;
    if let Some(from) = wanted.from.clone().filter(|from| !from.contains('#')) {
        walk::open(call, &from, Kinds::FVS)?;
    }
    let plan = pool.run(move |host| host.plan(&wanted))??;
    Ok((pool, plan))
}

/// The source of one step, by its whole name.
fn one_source(call: &mut Call, name: &str, source: String) -> String {
    if !source.contains(['@', '#']) {
        let warning = "Warning: incremental source didn't specify type, assuming snapshot. Use '@' or '#' prefix to avoid ambiguity.";
        call.output.error(warning);
        return format!("{}@{source}", name::base(name));
    }
    if source.starts_with(['@', '#']) { format!("{}{source}", name::base(name)) } else { source }
}

/// The source of several: a snapshot of the file system, or its origin.
fn package_source(call: &Call, name: &str, source: &str) -> Outcome<String> {
    let usage = |reason: &str| Err(Failure::Usage(USAGE, reason.to_owned()));
    if source.contains('#') {
        return Err(Failure::Told("Error: multiple snapshots cannot be sent from a bookmark.".into()));
    }
    let base = name::base(name);
    let (of, component) = source.split_once('@').unwrap_or(("", source));
    if !of.is_empty() && of != base {
        let (pool, whole) = (walk::open(call, base, Kinds::FV)?, base.to_owned());
        let origin = pool.run(move |host| host.origin(&whole))?;
        return if origin.as_deref() == Some(source) { Ok(source.to_owned()) } else { usage("incremental source must be in same filesystem") };
    }
    match component {
        "" => Err(Failure::Told(format!("cannot send '{base}': zero-length incremental source"))),
        word if word.contains(['@', '/']) => usage("invalid incremental source"),
        _ => Ok(format!("{base}@{component}")),
    }
}

/// Tells each step with its size, and the sum.
fn tell(call: &mut Call, pool: &PoolThread, plan: &Plan, telling: Telling) -> Outcome {
    let mut total = 0;
    for step in &plan.steps {
        let asked = step.clone();
        let size = pool.run(move |host| asked.size(host))?? + overhead(step);
        total += size;
        let from = if plan.is_package { own_source(step) } else { step.from.as_deref() };
        let line = if telling.is_scripted { scripted(step, from, size) } else { readable(step, from, size) };
        if telling.is_dry { call.output.line(&line) } else { call.output.error(&line) }
    }
    let shown = if plan.is_package { size::bytes(total) } else { size::plain(total) };
    let line = if telling.is_scripted { format!("size\t{total}") } else { format!("total estimated size is {shown}") };
    if telling.is_dry { call.output.line(&line) } else { call.output.error(&line) }
    call.flush();
    Ok(())
}

fn overhead(step: &PlannedStep) -> u64 {
    Head::Step(step.head.clone()).bytes(0).len() as u64
}

/// What stands behind the `@` of a source, as a step of several is told. From an origin it is told as one in full.
fn own_source(step: &PlannedStep) -> Option<&str> {
    let from = step.from.as_deref()?;
    name::snapshot(from).filter(|_| name::base(from) == name::base(&step.to))
}

fn scripted(step: &PlannedStep, from: Option<&str>, size: u64) -> String {
    match from {
        Some(from) => format!("incremental\t{from}\t{}\t{size}", step.to),
        None => format!("full\t{}\t{size}", step.to),
    }
}

fn readable(step: &PlannedStep, from: Option<&str>, size: u64) -> String {
    let size = size::bytes(size);
    match from {
        Some(from) if from.contains(['@', '#']) => format!("send from {from} to {} estimated size is {size}", step.to),
        Some(from) => format!("send from @{from} to {} estimated size is {size}", step.to),
        None => format!("full send of {} estimated size is {size}", step.to),
    }
}

/// Writes the stream. Each step is made when the one before is written; a client that is gone, or reads no more, ends it.
fn write(call: &mut Call, pool: &PoolThread, plan: Plan, telling: Telling) -> Outcome {
    call.flush();
    let broken = |error: io::Error| match error.kind() {
        io::ErrorKind::BrokenPipe => Failure::Silent,
        _ => Failure::Cannot(Action::WarnSend(plan.begin.to_name.clone()), Reason::Text(error.to_string())),
    };
    call.write_all(MAGIC).map_err(broken)?;
    Head::Begin(plan.begin.clone()).write(0, call).map_err(broken)?;
    for step in &plan.steps {
        let asked = step.clone();
        let body = pool.run(move |host| asked.body(host))??;
        Head::Step(step.head.clone()).write(body.len() as u64, call).map_err(broken)?;
        write_body(call, &body, &step.to, telling).map_err(broken)?;
    }
    Head::End.write(0, call).map_err(broken)
}

/// Writes a body, and tells each second how much of it went.
fn write_body(call: &mut Call, body: &[u8], name: &str, telling: Telling) -> io::Result<()> {
    let (begin, mut last, mut sent) = (Instant::now(), Instant::now(), 0);
    let mut has_header = telling.is_scripted;
    for piece in body.chunks(PIECE) {
        call.write_all(piece)?;
        sent += piece.len() as u64;
        if telling.shows_progress && last.elapsed() >= TELLING {
            if !has_header {
                call.output.error(&format!("TIME        SENT   SNAPSHOT {name}"));
                has_header = true;
            }
            let line = progress(call.clock() + begin.elapsed().as_secs() as i64, sent, name, telling);
            call.output.error(&line);
            Call::flush(call);
            last = Instant::now();
        }
    }
    Ok(())
}

fn progress(clock: i64, sent: u64, name: &str, telling: Telling) -> String {
    let time = sys::local_time(clock).map_or_else(String::new, |it| format!("{:02}:{:02}:{:02}", it.hour, it.minute, it.second));
    if telling.is_scripted { format!("{time}\t{sent}\t{name}") } else { format!("{time}   {:>5}   {name}", size::bytes(sent)) }
}
