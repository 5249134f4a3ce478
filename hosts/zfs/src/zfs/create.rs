//! `zfs create`.

use crate::call::Call;
use crate::dataset::Kind;
use crate::failure::{Action, Failure, Outcome, Reason, Trying};
use crate::host::Host;
use crate::name;
use crate::options::{Mistake, Options};
use crate::property::{Kinds, Native};
use crate::setting::{check_new, settings, volume_reservation, Checked, Setting, VOLUME_BLOCK};
use crate::size;
use crate::usage::{Usage, ZfsCommand};

const USAGE: Usage = Usage::Zfs(ZfsCommand::Create);

#[derive(Clone)]
struct Create {
    name: String,
    kind: Kind,
    settings: Vec<Setting>,
    /// The settings in the order and form in which `-v` tells them.
    told: Vec<Setting>,
    has_parents: bool,
    is_dry: bool,
    is_unmounted: bool,
}

pub fn run(call: &mut Call, words: &[String]) -> Outcome {
    let options = read_options(call, words)?;
    let create = Create::read(&options)?;
    let is_verbose = options.has('v') || options.has('P');
    let pool = match call.world.pool_of(&create.name) {
        Some(pool) => pool,
        None => return Err(create.no_pool()),
    };
    let (made, clock) = (create.clone(), call.clock());
    let made = call.change(&pool, move |host| made.make(host, clock))?;
    if is_verbose && made != Made::Before {
        create.tell(call, options.has('P'));
    }
    if !create.is_dry {
        call.log(&pool);
    }
    match made {
        Made::Unmounted(text) => Err(not_mounted(&text)),
        _ => Ok(()),
    }
}

/// A file system that was made, and why it isn't mounted.
pub fn not_mounted(text: &str) -> Failure {
    Failure::Told(format!("{text}\nfilesystem successfully created, but not mounted"))
}

/// What a create has come to.
#[derive(PartialEq, Eq)]
enum Made {
    /// It was there already, which `-p` takes as done.
    Before,
    Now,
    /// It is there, and can't be mounted.
    Unmounted(String),
}

/// Reads the options. Each is judged as it comes, before what is wrong behind it.
fn read_options(call: &Call, words: &[String]) -> Outcome<Options> {
    let options = Options::read(words, "PV:b:nso:puv", &[], call.request.is_posix);
    let usage = |reason: String| Err(Failure::Usage(USAGE, reason));
    for (place, found) in options.found.iter().enumerate() {
        let before = &options.found[..place];
        match found.letter {
            'V' => parsed("size", &found.argument).map(drop)?,
            'b' => parsed("block size", &found.argument).map(drop)?,
            'o' => {
                let given = before.iter().filter(|it| it.letter == 'o').chain([found]);
                settings(given.map(|it| it.argument.as_str())).map(drop)?;
            }
            _ => {}
        }
    }
    match &options.mistake {
        Some(Mistake::NoArgument(_)) => return usage("missing size argument".into()),
        Some(mistake) => return usage(mistake.to_string()),
        None => {}
    }
    let is_volume = options.has('V');
    if (options.has('b') || options.has('s')) && !is_volume {
        return usage("'-s' and '-b' can only be used when creating a volume".into());
    }
    if options.has('u') && is_volume {
        return usage("'-u' can only be used when creating a filesystem".into());
    }
    match options.operands.len() {
        0 => usage(format!("missing {} argument", if is_volume { Kind::Volume } else { Kind::FileSystem })),
        1 => Ok(options),
        _ => usage("too many arguments".into()),
    }
}

/// A size of `-V` or `-b`.
fn parsed(what: &str, word: &str) -> Outcome<u64> {
    size::parsed(word).map_err(|reason| Failure::Told(format!("bad volume {what} '{word}': {reason}")))
}

impl Create {
    fn read(options: &Options) -> Outcome<Create> {
        let mut given = settings(options.arguments('o'))?;
        let kind = if options.has('V') { Kind::Volume } else { Kind::FileSystem };
        if let Some(size) = options.argument('V') {
            volume_settings(options, size, &mut given)?;
        }
        let mut told = given.clone();
        told.sort_by_key(|setting| matches!(setting.property.as_str(), "volsize" | "volblocksize" | "refreservation"));
        Ok(Create {
            name: options.operands[0].clone(),
            kind,
            settings: given,
            told,
            has_parents: options.has('p'),
            is_dry: options.has('n'),
            is_unmounted: options.has('u'),
        })
    }

    fn no_pool(&self) -> Failure {
        let pool = name::pool(&self.name);
        if self.is_dry || self.kind == Kind::Volume {
            return Failure::Told(format!("cannot open '{pool}': no such pool"));
        }
        if let Err(reason) = self.check_name() {
            return Failure::Cannot(Action::Create(self.name.clone()), reason);
        }
        Failure::Cannot(Action::Create(self.name.clone()), Reason::NoPool(pool.to_owned()))
    }

    fn check_name(&self) -> Result<(), Reason> {
        name::check(&self.name, Kinds::of(self.kind), true)?;
        if self.name.matches('/').count() >= name::DEPTH_LIMIT {
            return Err(Reason::Text("maximum name nesting depth exceeded".into()));
        }
        if !self.name.contains('/') {
            return Err(Reason::Text("missing dataset name".into()));
        }
        Ok(())
    }

    /// Makes it, or with `-n` sees that it could be made.
    fn make(&self, host: &mut Host, clock: i64) -> Outcome<Made> {
        let action = || if self.is_dry { Action::Verify(self.name.clone()) } else { Action::Create(self.name.clone()) };
        let create = || Action::Create(self.name.clone());
        if self.has_parents && host.tree.get(&self.name).is_some_and(|it| it.kind == self.kind) {
            return Ok(Made::Before);
        }
        if self.kind == Kind::Volume {
            check_new(&self.settings, self.kind).trying(action)?;
        }
        if !self.is_dry {
            self.check_name().trying(create)?;
            if self.has_parents {
                host.make_parents(&self.name, clock).trying(create)?;
            }
            host.check_place(&self.name, name::parent(&self.name).unwrap_or_default()).trying(create)?;
        }
        let checked = check_new(&self.settings, self.kind).trying(action)?;
        if self.is_dry {
            return Ok(Made::Now);
        }
        self.check_volume(&checked).trying(create)?;
        host.make_file_system(&self.name, self.kind, clock).trying(create)?;
        for setting in &checked {
            host.set_new(&self.name, setting).map_err(out_of_space).trying(create)?;
        }
        let mounted = if self.is_unmounted { Ok(()) } else { host.mount_new(&self.name) };
        Ok(mounted.map_or_else(Made::Unmounted, |()| Made::Now))
    }

    fn check_volume(&self, checked: &[Checked]) -> Result<(), Reason> {
        let number = |native: Native| {
            checked.iter().find_map(|it| match it {
                Checked::Native(one, text) if *one == native => text.parse::<u64>().ok(),
                _ => None,
            })
        };
        if self.kind == Kind::Volume && number(Native::VolSize) == Some(0) {
            return Err(Reason::Text("volume size cannot be zero".into()));
        }
        Ok(())
    }

    /// What `-v` tells, in a form for programs with `-P`.
    fn tell(&self, call: &mut Call, is_scripted: bool) {
        let name = &self.name;
        let (ancestors, made) = match (is_scripted, self.is_dry) {
            (true, _) => (format!("create_ancestors\t{name}"), format!("create\t{name}")),
            (false, true) => (format!("would create ancestors of {name}"), format!("would create {name}")),
            (false, false) => (format!("create ancestors of {name}"), format!("create {name}")),
        };
        if self.has_parents {
            call.output.line(&ancestors);
        }
        call.output.line(&made);
        for Setting { property, value } in &self.told {
            let line = if is_scripted { format!("property\t{property}\t{value}") } else { format!("\t{property}={value}") };
            call.output.line(&line);
        }
    }
}

/// A limit that doesn't fit is want of space when a dataset is created.
fn out_of_space(reason: Reason) -> Reason {
    match reason {
        Reason::TooBigLimit | Reason::LimitBelowUse => Reason::NoSpace,
        other => other,
    }
}

/// What `-V` and `-b` set: the size in whole blocks, and a refreservation unless the volume is sparse.
fn volume_settings(options: &Options, size: &str, settings: &mut Vec<Setting>) -> Outcome {
    let bytes = parsed("size", size)?;
    if let Some(block) = options.argument('b') {
        let block = parsed("block size", block)?;
        put(settings, "volblocksize", block);
    }
    let given = |settings: &[Setting], property: &str| settings.iter().find(|it| it.property == property).and_then(|it| size::parsed(&it.value).ok());
    let block = given(settings, "volblocksize").unwrap_or(VOLUME_BLOCK).max(1);
    let whole = bytes.checked_next_multiple_of(block).unwrap_or(bytes);
    put(settings, "volsize", whole);
    if !options.has('s') && !settings.iter().any(|setting| setting.property == "refreservation") {
        put(settings, "refreservation", volume_reservation(whole, block));
    }
    Ok(())
}

fn put(settings: &mut Vec<Setting>, property: &str, number: u64) {
    settings.retain(|setting| setting.property != property);
    settings.push(Setting { property: property.to_owned(), value: number.to_string() });
}
