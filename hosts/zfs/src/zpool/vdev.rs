//! What a pool is said to be made of: devices and how they stand together. A file lends its size, and nothing is written to it.

use crate::failure::{Failure, Outcome};
use std::fs;
use std::io;
use std::os::unix::fs::FileTypeExt;
use std::path::{Path, PathBuf};

/// What devices are for.
#[derive(Clone, Copy, Debug, PartialEq, Eq)]
enum Class {
    Data,
    Dedup,
    Special,
    Log,
    Cache,
    Spare,
}

impl Class {
    fn named(word: &str) -> Option<Class> {
        Some(match word {
            "log" => Class::Log,
            "cache" => Class::Cache,
            "spare" => Class::Spare,
            "special" => Class::Special,
            "dedup" => Class::Dedup,
            _ => return None,
        })
    }

    /// Its line in a status.
    fn header(self) -> Option<&'static str> {
        Some(match self {
            Class::Data => return None,
            Class::Dedup => "dedup\t",
            Class::Special => "special\t",
            Class::Log => "logs\t",
            Class::Cache => "cache",
            Class::Spare => "spares",
        })
    }

    fn holds_data(self) -> bool {
        matches!(self, Class::Data | Class::Special | Class::Dedup)
    }
}

/// A device, or several that stand together.
#[derive(Clone, Debug, PartialEq, Eq)]
pub struct Vdev {
    class: Class,
    /// `mirror`, `raidz1` and so on; none of one device.
    grouping: Option<String>,
    pub devices: Vec<String>,
    /// The bytes that it lends.
    pub size: u64,
    /// The bytes of each device.
    sizes: Vec<u64>,
}

/// How many devices a word between devices wants at least; none where it is no such word.
fn least_of(word: &str) -> Option<usize> {
    Some(match word.split(':').next().unwrap_or(word) {
        "mirror" | "raidz" | "raidz1" | "draid" | "draid1" => 2,
        "raidz2" | "draid2" => 3,
        "raidz3" | "draid3" => 4,
        _ => return None,
    })
}

fn invalid(reason: &str) -> Failure {
    Failure::Told(format!("invalid vdev specification: {reason}"))
}

/// Reads the words that stand behind a pool's name.
pub fn read(words: &[String]) -> Outcome<Vec<Vdev>> {
    let mut vdevs = Vec::new();
    let mut class = Class::Data;
    let mut rest = words;
    while let Some((word, behind)) = rest.split_first() {
        rest = behind;
        if let Some(next) = Class::named(word) {
            class = next;
            continue;
        }
        let least = least_of(word);
        let count = if least.is_some() { rest.iter().take_while(|it| Class::named(it).is_none() && least_of(it).is_none()).count() } else { 0 };
        if count < least.unwrap_or(0) {
            return Err(invalid(&format!("{word} requires at least {} devices", least.unwrap_or(0))));
        }
        let devices = if count > 0 { rest[..count].to_vec() } else { vec![word.clone()] };
        let grouping = least.map(|_| if word == "raidz" { "raidz1".to_owned() } else { word.clone() });
        vdevs.push(Vdev { class, grouping, devices, size: 0, sizes: Vec::new() });
        rest = &rest[count..];
    }
    if vdevs.iter().any(|vdev| vdev.class == Class::Data) { Ok(vdevs) } else { Err(invalid("at least one toplevel vdev must be specified")) }
}

/// The bytes of a device: those of a file, or of a disk's node that a test has put there.
fn device_size(word: &str) -> Outcome<u64> {
    let told = |text: String| Err(Failure::Told(text));
    let path = if word.starts_with('/') { PathBuf::from(word) } else { Path::new("/dev").join(word) };
    match fs::metadata(&path) {
        Ok(facts) if facts.is_file() || facts.file_type().is_block_device() => Ok(facts.len()),
        Ok(_) => told(format!("cannot use '{word}': must be a block device or regular file")),
        Err(_) if word.starts_with('/') => told(format!("cannot resolve path '{word}'")),
        Err(error) if error.kind() == io::ErrorKind::NotFound => {
            told(format!("cannot open '{word}': no such device in /dev\nmust be a full path or shorthand device name"))
        }
        Err(_) => told(format!("cannot open '{word}'")),
    }
}

impl Vdev {
    /// Looks for its devices, and takes up how much they lend: of a mirror the smallest. The size of the smallest.
    pub fn measure(&mut self) -> Outcome<u64> {
        let sizes = self.devices.iter().map(|device| device_size(device)).collect::<Outcome<Vec<u64>>>()?;
        let smallest = sizes.iter().copied().min().unwrap_or(0);
        self.size = match &self.grouping {
            _ if !self.class.holds_data() => 0,
            Some(word) if word == "mirror" => smallest,
            _ => sizes.iter().sum(),
        };
        self.sizes = sizes;
        Ok(smallest)
    }
}

/// A line of `zpool list -v`.
pub struct Listed {
    /// Its name, indented.
    pub name: String,
    pub size: u64,
    /// What is allocated, of a vdev that lends something.
    pub allocated: Option<u64>,
    /// None of a word that stands before vdevs.
    pub state: Option<&'static str>,
}

/// The vdevs and devices of a pool, in the order of `zpool list -v`. What is allocated is said to lie in all evenly.
pub fn listed(vdevs: &[Vdev], allocated: u64) -> Vec<Listed> {
    let total = vdevs.iter().map(|vdev| vdev.size).sum::<u64>().max(1);
    let share = |vdev: &Vdev| (u128::from(allocated) * u128::from(vdev.size) / u128::from(total)) as u64;
    let classes = [Class::Data, Class::Dedup, Class::Special, Class::Log, Class::Cache, Class::Spare];
    let mut lines = Vec::new();
    for class in classes {
        let state = Some(if class == Class::Spare { "AVAIL" } else { "ONLINE" });
        let own: Vec<(usize, &Vdev)> = vdevs.iter().enumerate().filter(|(_, vdev)| vdev.class == class).collect();
        let header = class.header().filter(|_| !own.is_empty()).map(|header| if class == Class::Spare { "spare" } else { header.trim() });
        lines.extend(header.map(|header| Listed { name: header.to_owned(), size: 0, allocated: None, state: None }));
        for (place, vdev) in own {
            let of_space = Some(share(vdev)).filter(|_| vdev.size > 0);
            let top = vdev.grouping.as_ref().map(|word| format!("  {word}-{place}"));
            let depth = if top.is_some() { 4 } else { 2 };
            let of_device = of_space.filter(|_| top.is_none());
            lines.extend(top.map(|name| Listed { name, size: vdev.size, allocated: of_space, state }));
            let named = vdev.devices.iter().zip(&vdev.sizes);
            lines.extend(named.map(|(name, &size)| Listed { name: format!("{:depth$}{name}", ""), size, allocated: of_device, state }));
        }
    }
    lines
}

/// A line of a layout: how far in it stands, its name, and whether it is a spare's.
struct Line {
    depth: usize,
    name: String,
    is_spare: bool,
}

fn lines_of(vdevs: &[Vdev], class: Class) -> Vec<Line> {
    let mut lines = Vec::new();
    for (place, vdev) in vdevs.iter().enumerate().filter(|(_, vdev)| vdev.class == class) {
        let is_spare = class == Class::Spare;
        let inner = vdev.grouping.is_some() as usize;
        lines.extend(vdev.grouping.iter().map(|word| Line { depth: 2, name: format!("{word}-{place}"), is_spare }));
        lines.extend(vdev.devices.iter().map(|device| Line { depth: 2 + 2 * inner, name: device.clone(), is_spare }));
    }
    lines
}

/// The tree of a pool below its name, each line put together by `form` from its indented name and its state; headers are as they are.
pub fn layout(pool: &str, vdevs: &[Vdev], form: impl Fn(&str, &str, usize) -> String) -> String {
    let classes = [Class::Data, Class::Dedup, Class::Special, Class::Log, Class::Cache, Class::Spare];
    let all = classes.into_iter().map(|class| (class, lines_of(vdevs, class)));
    let all: Vec<(Class, Vec<Line>)> = all.filter(|(_, lines)| !lines.is_empty()).collect();
    let lengths = all.iter().flat_map(|(_, lines)| lines).map(|line| line.depth + line.name.len());
    let width = lengths.chain([pool.len(), 10]).max().unwrap_or(10);
    let mut text = form(pool, "ONLINE", width);
    for (class, lines) in all {
        text.extend(class.header().map(|header| format!("\t{header}\n")));
        for line in lines {
            text += &form(&format!("{}{}", " ".repeat(line.depth), line.name), if line.is_spare { "AVAIL" } else { "ONLINE" }, width);
        }
    }
    text
}

#[cfg(test)]
mod tests {
    use super::*;

    fn vdevs(line: &str) -> Result<Vec<Vdev>, String> {
        let words: Vec<String> = line.split(' ').map(str::to_owned).collect();
        read(&words).map_err(|failure| failure.to_string())
    }

    #[test]
    fn devices_stand_together_as_the_words_say() {
        let of = |line: &str| vdevs(line).unwrap().into_iter().map(|it| (it.grouping, it.devices.len())).collect::<Vec<_>>();
        assert_eq!(of("a b"), [(None, 1), (None, 1)]);
        assert_eq!(of("mirror a b mirror c d log e"), [(Some("mirror".into()), 2), (Some("mirror".into()), 2), (None, 1)]);
        assert_eq!(of("raidz a b c cache d e"), [(Some("raidz1".into()), 3), (None, 1), (None, 1)]);
        assert_eq!(vdevs("mirror a").unwrap_err(), "invalid vdev specification: mirror requires at least 2 devices\n");
        assert_eq!(vdevs("raidz2 a b log c").unwrap_err(), "invalid vdev specification: raidz2 requires at least 3 devices\n");
        assert_eq!(vdevs("spare a").unwrap_err(), "invalid vdev specification: at least one toplevel vdev must be specified\n");
    }

    #[test]
    fn devices_are_files_and_disks() {
        let text = |word: &str| device_size(word).map_err(|failure| failure.to_string());
        assert!(text("/etc/passwd").is_ok());
        assert_eq!(text("/no/such").unwrap_err(), "cannot resolve path '/no/such'\n");
        assert!(text("no-such-disk").unwrap_err().contains("no such device in /dev"));
        assert!(text("/etc").is_err());
    }

    #[test]
    fn a_list_has_the_space_of_what_stands_at_the_top() {
        let mut vdevs = vdevs("mirror a b c log d spare e").unwrap();
        for (vdev, sizes) in vdevs.iter_mut().zip([vec![300, 400], vec![100], vec![50], vec![60]]) {
            vdev.size = if vdev.class.holds_data() { sizes[0] } else { 0 };
            vdev.sizes = sizes;
        }
        // As many devices as sizes, so the mirror's third stands alone.
        vdevs[0].devices.pop();
        vdevs.insert(1, Vdev { class: Class::Data, grouping: None, devices: vec!["c".into()], size: 100, sizes: vec![100] });
        let lines = listed(&vdevs, 80);
        let told: Vec<(&str, u64, Option<u64>, bool)> = lines.iter().map(|it| (it.name.as_str(), it.size, it.allocated, it.state.is_some())).collect();
        let data = [("  mirror-0", 300, Some(60), true), ("    a", 300, None, true), ("    b", 400, None, true), ("  c", 100, Some(20), true)];
        assert_eq!(told[..4], data);
        assert_eq!(told[4..], [("logs", 0, None, false), ("  d", 100, None, true), ("spare", 0, None, false), ("  e", 50, None, true)]);
    }

    #[test]
    fn a_layout_has_a_line_for_each() {
        let vdevs = vdevs("mirror a b log c spare d").unwrap();
        let text = layout("tank", &vdevs, |name, state, width| format!("\t{name:<width$}  {state}\n"));
        let data = ["tank        ONLINE", "  mirror-0  ONLINE", "    a       ONLINE", "    b       ONLINE"];
        let lines = data.into_iter().chain(["logs\t", "  c         ONLINE", "spares"]).map(|line| format!("\t{line}\n"));
        assert_eq!(text, format!("{}\t  d         AVAIL\n", lines.collect::<String>()));
    }
}
