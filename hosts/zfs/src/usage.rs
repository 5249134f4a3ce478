//! Usage texts, as `zfs` and `zpool` of OpenZFS print them: scripts read them, and so do people who know those.

use crate::property::Native;
use crate::zpool::property::PoolProperty;
use std::fmt;

macro_rules! commands {
    ($(#[$doc:meta])* $enum:ident: $($command:ident $name:literal $group:literal [$($line:literal)*];)*) => {
        $(#[$doc])*
        #[derive(Clone, Copy, Debug, PartialEq, Eq)]
        pub enum $enum { $($command),* }

        impl $enum {
            const ALL: &'static [$enum] = &[$($enum::$command),*];

            fn row(self) -> (&'static str, u8, &'static [&'static str]) {
                match self {
                    $($enum::$command => ($name, $group, &[$($line),*]),)*
                }
            }

            pub fn name(self) -> &'static str {
                self.row().0
            }

            pub fn named(word: &str) -> Option<$enum> {
                $enum::ALL.iter().copied().find(|command| command.name() == word)
            }

            /// Its lines, each with a tab before it.
            fn lines(self) -> String {
                self.row().2.iter().map(|line| format!("\t{line}\n")).collect()
            }

            /// The lines of all commands, with an empty one between groups.
            fn all_lines() -> String {
                let mut text = String::new();
                let mut last = 0;
                for &command in $enum::ALL {
                    if command.row().1 != last {
                        text.push('\n');
                        last = command.row().1;
                    }
                    text += &command.lines();
                }
                text
            }
        }
    };
}

commands! {
    /// The commands of zfs(8).
    ZfsCommand:
    Version "version" 0 ["version"];
    Create "create" 1 [
        "create [-Pnpuv] [-o property=value] ... <filesystem>"
        "create [-Pnpsv] [-b blocksize] [-o property=value] ... -V <size> <volume>"
    ];
    Destroy "destroy" 1 [
        "destroy [-fnpRrv] <filesystem|volume>"
        "destroy [-dnpRrv] <filesystem|volume>@<snap>[%<snap>][,...]"
        "destroy <filesystem|volume>#<bookmark>"
    ];
    Snapshot "snapshot" 2 ["snapshot [-r] [-o property=value] ... <filesystem|volume>@<snap> ..."];
    Rollback "rollback" 2 ["rollback [-rRf] <snapshot>"];
    Clone "clone" 2 ["clone [-p] [-o property=value] ... <snapshot> <filesystem|volume>"];
    Promote "promote" 2 ["promote <clone-filesystem>"];
    Rename "rename" 2 [
        "rename [-f] <filesystem|volume|snapshot> <filesystem|volume|snapshot>"
        "rename -p [-f] <filesystem|volume> <filesystem|volume>"
        "rename -u [-f] <filesystem> <filesystem>"
        "rename -r <snapshot> <snapshot>"
    ];
    Bookmark "bookmark" 2 ["bookmark <snapshot|bookmark> <newbookmark>"];
    Program "program" 2 ["program [-jn] [-t <instruction limit>] [-m <memory limit (b)>]" "    <pool> <program file> [lua args...]"];
    List "list" 3 [
        "list [-Hp] [-r|-d max] [-o property[,...]] [-s property]..."
        "    [-S property]... [-t type[,...]] [filesystem|volume|snapshot] ..."
    ];
    Set "set" 4 ["set <property=value> ... <filesystem|volume|snapshot> ..."];
    Get "get" 4 [
        "get [-rHp] [-d max] [-o \"all\" | field[,...]]"
        "    [-t type[,...]] [-s source[,...]]"
        "    <\"all\" | property[,...]> [filesystem|volume|snapshot|bookmark] ..."
    ];
    Inherit "inherit" 4 ["inherit [-rS] <property> <filesystem|volume|snapshot> ..."];
    Upgrade "upgrade" 4 ["upgrade [-v]" "upgrade [-r] [-V version] <-a | filesystem ...>"];
    Userspace "userspace" 5 ["userspace [-Hinp] [-o field[,...]] [-s field] ..." "    [-S field] ... [-t type[,...]] <filesystem|snapshot|path>"];
    Groupspace "groupspace" 5 ["groupspace [-Hinp] [-o field[,...]] [-s field] ..." "    [-S field] ... [-t type[,...]] <filesystem|snapshot|path>"];
    Projectspace "projectspace" 5 ["projectspace [-Hp] [-o field[,...]] [-s field] ... " "    [-S field] ... <filesystem|snapshot|path>"];
    Project "project" 6 [
        "project [-d|-r] <directory|file ...>"
        "project -c [-0] [-d|-r] [-p id] <directory|file ...>"
        "project -C [-k] [-r] <directory ...>"
        "project [-p id] [-r] [-s] <directory ...>"
    ];
    Mount "mount" 7 ["mount" "mount [-flvO] [-o opts] <-a | filesystem>"];
    Unmount "unmount" 7 ["unmount [-fu] <-a | filesystem|mountpoint>"];
    Share "share" 7 ["share [-l] <-a [nfs|smb] | filesystem>"];
    Unshare "unshare" 7 ["unshare <-a [nfs|smb] | filesystem|mountpoint>"];
    Send "send" 8 [
        "send [-DnPpRVvLecwhb] [-[i|I] snapshot] <snapshot>"
        "send [-DnVvPLecw] [-i snapshot|bookmark] <filesystem|volume|snapshot>"
        "send [-DnPpVvLec] [-i bookmark|snapshot] --redact <bookmark> <snapshot>"
        "send [-nVvPe] -t <receive_resume_token>"
        "send [-PnVv] --saved filesystem"
    ];
    Receive "receive" 8 [
        "receive [-vMnsFhu] [-o <property>=<value>] ... [-x <property>] ..."
        "    <filesystem|volume|snapshot>"
        "receive [-vMnsFhu] [-o <property>=<value>] ... [-x <property>] ... "
        "    [-d | -e] <filesystem>"
        "receive -A <filesystem|volume>"
    ];
    Allow "allow" 9 [
        "allow <filesystem|volume>"
        "allow [-ldug] <\"everyone\"|user|group>[,...] <perm|@setname>[,...]"
        "    <filesystem|volume>"
        "allow [-ld] -e <perm|@setname>[,...] <filesystem|volume>"
        "allow -c <perm|@setname>[,...] <filesystem|volume>"
        "allow -s @setname <perm|@setname>[,...] <filesystem|volume>"
    ];
    Unallow "unallow" 10 [
        "unallow [-rldug] <\"everyone\"|user|group>[,...]"
        "    [<perm|@setname>[,...]] <filesystem|volume>"
        "unallow [-rld] -e [<perm|@setname>[,...]] <filesystem|volume>"
        "unallow [-r] -c [<perm|@setname>[,...]] <filesystem|volume>"
        "unallow [-r] -s @setname [<perm|@setname>[,...]] <filesystem|volume>"
    ];
    Hold "hold" 11 ["hold [-r] <tag> <snapshot> ..."];
    Holds "holds" 11 ["holds [-rH] <snapshot> ..."];
    Release "release" 11 ["release [-r] <tag> <snapshot> ..."];
    Diff "diff" 11 ["diff [-FHt] <snapshot> [snapshot|filesystem]"];
    LoadKey "load-key" 11 ["load-key [-rn] [-L <keylocation>] <-a | filesystem|volume>"];
    UnloadKey "unload-key" 11 ["unload-key [-r] <-a | filesystem|volume>"];
    ChangeKey "change-key" 11 [
        "change-key [-l] [-o keyformat=<value>]"
        "    [-o keylocation=<value>] [-o pbkdf2iters=<value>]"
        "    <filesystem|volume>"
        "change-key -i [-l] <filesystem|volume>"
    ];
    Redact "redact" 11 ["redact <snapshot> <bookmark> <redaction_snapshot> ..."];
    Wait "wait" 11 ["wait [-t <activity>] <filesystem>"];
}

commands! {
    /// The commands of zpool(8).
    ZpoolCommand:
    Version "version" 0 ["version"];
    Create "create" 1 [
        "create [-fnd] [-o property=value] ... "
        "    [-O file-system-property=value] ... "
        "    [-m mountpoint] [-R root] <pool> <vdev> ..."
    ];
    Destroy "destroy" 1 ["destroy [-f] <pool>"];
    Add "add" 2 ["add [-fgLnP] [-o property=value] <pool> <vdev> ..."];
    Remove "remove" 2 ["remove [-npsw] <pool> <device> ..."];
    Labelclear "labelclear" 3 ["labelclear [-f] <vdev>"];
    Checkpoint "checkpoint" 4 ["checkpoint [-d [-w]] <pool> ..."];
    List "list" 5 ["list [-gHLpPv] [-o property[,...]] [-T d|u] [pool] ... " "    [interval [count]]"];
    Iostat "iostat" 5 [
        "iostat [[[-c [script1,script2,...][-lq]]|[-rw]] [-T d | u] [-ghHLpPvy]"
        "    [[pool ...]|[pool vdev ...]|[vdev ...]] [[-n] interval [count]]"
    ];
    Status "status" 5 ["status [-c [script1,script2,...]] [-igLpPstvxD]  [-T d|u] [pool] ... " "    [interval [count]]"];
    Online "online" 6 ["online [-e] <pool> <device> ..."];
    Offline "offline" 6 ["offline [-f] [-t] <pool> <device> ..."];
    Clear "clear" 6 ["clear [-nF] <pool> [device]"];
    Reopen "reopen" 6 ["reopen [-n] <pool>"];
    Attach "attach" 7 ["attach [-fsw] [-o property=value] <pool> <device> <new-device>"];
    Detach "detach" 7 ["detach <pool> <device>"];
    Replace "replace" 7 ["replace [-fsw] [-o property=value] <pool> <device> [new-device]"];
    Split "split" 7 ["split [-gLnPl] [-R altroot] [-o mntopts]" "    [-o property=value] <pool> <newpool> [<device> ...]"];
    Initialize "initialize" 8 ["initialize [-c | -s] [-w] <pool> [<device> ...]"];
    Resilver "resilver" 8 ["resilver <pool> ..."];
    Scrub "scrub" 8 ["scrub [-s | -p] [-w] <pool> ..."];
    Trim "trim" 8 ["trim [-dw] [-r <rate>] [-c | -s] <pool> [<device> ...]"];
    Import "import" 9 [
        "import [-d dir] [-D]"
        "import [-o mntopts] [-o property=value] ... "
        "    [-d dir | -c cachefile] [-D] [-l] [-f] [-m] [-N] [-R root] [-F [-n]] -a"
        "import [-o mntopts] [-o property=value] ... "
        "    [-d dir | -c cachefile] [-D] [-l] [-f] [-m] [-N] [-R root] [-F [-n]]"
        "    [--rewind-to-checkpoint] <pool | id> [newpool]"
    ];
    Export "export" 9 ["export [-af] <pool> ..."];
    Upgrade "upgrade" 9 ["upgrade" "upgrade -v" "upgrade [-V version] <-a | pool ...>"];
    Reguid "reguid" 9 ["reguid <pool>"];
    History "history" 10 ["history [-il] [<pool>] ..."];
    Events "events" 10 ["events [-vHf [pool] | -c]"];
    Get "get" 11 ["get [-Hp] [-o \"all\" | field[,...]] <\"all\" | property[,...]> <pool> ..."];
    Set "set" 11 ["set <property=value> <pool> "];
    Sync "sync" 11 ["sync [pool] ..."];
    Wait "wait" 12 ["wait [-Hp] [-T d|u] [-t <activity>[,...]] <pool> [interval]"];
}

/// Whose usage is told.
#[derive(Clone, Copy, Debug, PartialEq, Eq)]
pub enum Usage {
    Zfs(ZfsCommand),
    AllOfZfs,
    Zpool(ZpoolCommand),
    AllOfZpool,
}

impl fmt::Display for Usage {
    fn fmt(&self, f: &mut fmt::Formatter<'_>) -> fmt::Result {
        match self {
            Usage::Zfs(command) => {
                write!(f, "usage:\n{}", command.lines())?;
                match command {
                    ZfsCommand::Set | ZfsCommand::Get | ZfsCommand::Inherit | ZfsCommand::List => f.write_str(&property_list()),
                    _ => f.write_str(LISTS),
                }
            }
            Usage::AllOfZfs => {
                write!(f, "usage: zfs command args ...\nwhere 'command' is one of the following:\n\n{}", ZfsCommand::all_lines())?;
                write!(f, "\nEach dataset is of the form: pool/[dataset/]*dataset[@name]\n{LISTS}")
            }
            Usage::Zpool(command) => {
                write!(f, "usage:\n{}", command.lines())?;
                match command {
                    ZpoolCommand::Set | ZpoolCommand::Get | ZpoolCommand::List => f.write_str(&PoolProperty::table()),
                    _ => Ok(()),
                }
            }
            Usage::AllOfZpool => {
                write!(f, "usage: zpool command args ...\nwhere 'command' is one of the following:\n\n{}", ZpoolCommand::all_lines())
            }
        }
    }
}

const LISTS: &str = "\nFor the property list, run: zfs set|get\n\nFor the delegated permission list, run: zfs allow|unallow\n";

/// What stands below the table of properties.
const FORMS: &str = "
Sizes are specified in bytes with standard units such as K, M, G, etc.

User-defined properties can be specified by using a name containing a colon (:).

The {user|group|project}[obj]{used|quota}@ properties must be appended with
a user|group|project specifier of one of these forms:
    POSIX name      (eg: \"matt\")
    POSIX id        (eg: \"126829\")
    SMB name@domain (eg: \"matt@sun\")
    SMB SID         (eg: \"S-1-234-567-89\")
";

/// The rows below the native properties: a name, whether it is set, its values.
const OTHERS: [(&str, bool, &str); 14] = [
    ("userused@...", false, "<size>"),
    ("groupused@...", false, "<size>"),
    ("projectused@...", false, "<size>"),
    ("userobjused@...", false, "<size>"),
    ("groupobjused@...", false, "<size>"),
    ("projectobjused@...", false, "<size>"),
    ("userquota@...", true, "<size> | none"),
    ("groupquota@...", true, "<size> | none"),
    ("projectquota@...", true, "<size> | none"),
    ("userobjquota@...", true, "<size> | none"),
    ("groupobjquota@...", true, "<size> | none"),
    ("projectobjquota@...", true, "<size> | none"),
    ("written@<snap>", false, "<size>"),
    ("written#<bookmark>", false, "<size>"),
];

/// The table of all properties.
pub fn property_list() -> String {
    let mut text = format!("\nThe following properties are supported:\n\n\t{:<14} {}  {}   {}\n\n", "PROPERTY", "EDIT", "INHERIT", "VALUES");
    let mut natives: Vec<Native> = Native::ALL.iter().copied().filter(|native| !native.is_hidden()).collect();
    natives.sort_by_key(|native| (native.is_set_at_creation(), native.name()));
    for native in natives {
        let edit = if native.is_read_only() { " NO    " } else { "YES    " };
        let inherit = if native.is_inherited() { "  YES   " } else { "   NO   " };
        text += &format!("\t{:<15} {edit}{inherit}{}\n", native.name(), native.values());
    }
    for (name, is_set, values) in OTHERS {
        text += &format!("\t{name:<15} {}       NO   {values}\n", if is_set { "YES" } else { " NO" });
    }
    text + FORMS
}

#[cfg(test)]
mod tests {
    use super::*;

    #[test]
    fn commands_are_found_by_their_names() {
        assert_eq!(ZfsCommand::named("load-key"), Some(ZfsCommand::LoadKey));
        assert_eq!(ZpoolCommand::named("history"), Some(ZpoolCommand::History));
        assert_eq!(ZfsCommand::named("rm"), None);
    }

    #[test]
    fn a_usage_has_its_lines() {
        let text = Usage::Zfs(ZfsCommand::Promote).to_string();
        assert!(text.starts_with("usage:\n\tpromote <clone-filesystem>\n\nFor the property list, run: zfs set|get\n"));
        let all = Usage::AllOfZfs.to_string();
        assert!(all.contains("\n\n\tlist [-Hp]") && all.contains("\tholds [-rH] <snapshot> ...\n"));
    }

    #[test]
    fn the_property_list_has_columns() {
        let text = Usage::Zfs(ZfsCommand::Get).to_string();
        assert!(text.contains("\tatime           YES      YES   on | off\n"));
        assert!(text.contains("\tused             NO       NO   <size>\n"));
        assert!(text.contains("\tuserquota@...   YES       NO   <size> | none\n"));
    }
}
