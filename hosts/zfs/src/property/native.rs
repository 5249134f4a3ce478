//! The native properties of zfsprops(7), in the order in which `get all` has them.

use crate::dataset::Kind;
use std::fmt;

/// What values a property takes.
#[derive(Clone, Copy, Debug, PartialEq, Eq)]
pub enum Form {
    /// One of a few words.
    Choice,
    /// Bytes.
    Size,
    Number,
    Text,
}

/// Who sets a property, and whether it is inherited.
#[derive(Clone, Copy, Debug, PartialEq, Eq)]
pub enum Attribute {
    ReadOnly,
    /// Set, and inherited from the file system above.
    Inherited,
    /// Set, and the default where it isn't.
    Local,
    /// Set when the dataset is created.
    Once,
    /// As `Once`, and not inherited.
    OnceLocal,
}

/// The kinds of datasets that have a property.
#[derive(Clone, Copy, Debug, PartialEq, Eq)]
pub struct Kinds(u8);

impl Kinds {
    pub const FILE_SYSTEM: Kinds = Kinds(1);
    pub const VOLUME: Kinds = Kinds(2);
    pub const SNAPSHOT: Kinds = Kinds(4);
    pub const BOOKMARK: Kinds = Kinds(8);
    pub const FV: Kinds = Kinds(3);
    pub const FS: Kinds = Kinds(5);
    pub const VS: Kinds = Kinds(6);
    pub const FVS: Kinds = Kinds(7);
    pub const ALL: Kinds = Kinds(15);
    pub const NONE: Kinds = Kinds(0);

    pub fn of(kind: Kind) -> Kinds {
        match kind {
            Kind::FileSystem => Kinds::FILE_SYSTEM,
            Kind::Volume => Kinds::VOLUME,
            Kind::Snapshot => Kinds::SNAPSHOT,
            Kind::Bookmark => Kinds::BOOKMARK,
        }
    }

    pub fn has(self, kind: Kind) -> bool {
        self.meets(Kinds::of(kind))
    }

    /// Whether they have a kind in common.
    pub fn meets(self, other: Kinds) -> bool {
        self.0 & other.0 != 0
    }

    pub fn with(self, other: Kinds) -> Kinds {
        Kinds(self.0 | other.0)
    }
}

/// What is fixed of a property.
struct Row {
    property: Native,
    name: &'static str,
    header: &'static str,
    form: Form,
    attribute: Attribute,
    kinds: Kinds,
    values: &'static str,
    default: &'static str,
}

macro_rules! properties {
    ($($property:ident $name:literal $header:literal $form:ident $attribute:ident $kinds:ident $values:literal $default:literal;)*) => {
        #[derive(Clone, Copy, Debug, PartialEq, Eq, PartialOrd, Ord, Hash)]
        pub enum Native { $($property),* }

        impl Native {
            pub const ALL: &'static [Native] = &[$(Native::$property),*];
        }

        const ROWS: &[Row] = &[$(Row {
            property: Native::$property,
            name: $name,
            header: $header,
            form: Form::$form,
            attribute: Attribute::$attribute,
            kinds: Kinds::$kinds,
            values: $values,
            default: $default,
        }),*];
    };
}

properties! {
    Type "type" "TYPE" Text ReadOnly ALL "filesystem | volume | snapshot | bookmark" "";
    Creation "creation" "CREATION" Number ReadOnly ALL "<date>" "";
    Used "used" "USED" Size ReadOnly FVS "<size>" "";
    Available "available" "AVAIL" Size ReadOnly FV "<size>" "";
    Referenced "referenced" "REFER" Size ReadOnly ALL "<size>" "";
    CompressRatio "compressratio" "RATIO" Number ReadOnly ALL "<1.00x or higher if compressed>" "";
    Mounted "mounted" "MOUNTED" Choice ReadOnly FILE_SYSTEM "yes | no" "";
    Origin "origin" "ORIGIN" Text ReadOnly FV "<snapshot>" "";
    Quota "quota" "QUOTA" Size Local FILE_SYSTEM "<size> | none" "0";
    Reservation "reservation" "RESERV" Size Local FV "<size> | none" "0";
    VolSize "volsize" "VOLSIZE" Size Local VS "<size>" "";
    VolBlockSize "volblocksize" "VOLBLOCK" Size Once VOLUME "512 to 128k, power of 2" "8192";
    RecordSize "recordsize" "RECSIZE" Size Inherited FILE_SYSTEM "512 to 1M, power of 2" "131072";
    MountPoint "mountpoint" "MOUNTPOINT" Text Inherited FILE_SYSTEM "<path> | legacy | none" "/";
    ShareNfs "sharenfs" "SHARENFS" Text Inherited FILE_SYSTEM "on | off | NFS share options" "off";
    Checksum "checksum" "CHECKSUM" Choice Inherited FV "on | off | fletcher2 | fletcher4 | sha256 | sha512 | skein | edonr" "on";
    Compression "compression" "COMPRESS" Choice Inherited FV
        "on | off | lzjb | gzip | gzip-[1-9] | zle | lz4 | zstd | zstd-[1-19] | zstd-fast | zstd-fast-[1-10,20,30,40,50,60,70,80,90,100,500,1000]"
        "off";
    ATime "atime" "ATIME" Choice Inherited FILE_SYSTEM "on | off" "on";
    Devices "devices" "DEVICES" Choice Inherited FS "on | off" "on";
    Exec "exec" "EXEC" Choice Inherited FS "on | off" "on";
    SetUid "setuid" "SETUID" Choice Inherited FS "on | off" "on";
    ReadOnly "readonly" "RDONLY" Choice Inherited FV "on | off" "off";
    Zoned "zoned" "ZONED" Choice Inherited FILE_SYSTEM "on | off" "off";
    SnapDir "snapdir" "SNAPDIR" Choice Inherited FILE_SYSTEM "hidden | visible" "hidden";
    AclMode "aclmode" "ACLMODE" Choice Inherited FILE_SYSTEM "discard | groupmask | passthrough | restricted" "discard";
    AclInherit "aclinherit" "ACLINHERIT" Choice Inherited FILE_SYSTEM "discard | noallow | restricted | passthrough | passthrough-x" "restricted";
    CreateTxg "createtxg" "CREATETXG" Number ReadOnly ALL "<uint64>" "";
    CanMount "canmount" "CANMOUNT" Choice Local FILE_SYSTEM "on | off | noauto" "on";
    XAttr "xattr" "XATTR" Choice Inherited FS "on | off | dir | sa" "on";
    Copies "copies" "COPIES" Choice Inherited FV "1 | 2 | 3" "1";
    Version "version" "VERSION" Choice Local FS "1 | 2 | 3 | 4 | 5 | current" "5";
    Utf8Only "utf8only" "UTF8ONLY" Choice Once FS "on | off" "off";
    Normalization "normalization" "NORMALIZATION" Choice Once FS "none | formC | formD | formKC | formKD" "none";
    CaseSensitivity "casesensitivity" "CASE" Choice Once FS "sensitive | insensitive | mixed" "sensitive";
    VScan "vscan" "VSCAN" Choice Inherited FILE_SYSTEM "on | off" "off";
    NbMand "nbmand" "NBMAND" Choice Inherited FS "on | off" "off";
    ShareSmb "sharesmb" "SHARESMB" Text Inherited FILE_SYSTEM "on | off | SMB share options" "off";
    RefQuota "refquota" "REFQUOTA" Size Local FILE_SYSTEM "<size> | none" "0";
    RefReservation "refreservation" "REFRESERV" Size Local FV "<size> | none" "0";
    Guid "guid" "GUID" Number ReadOnly ALL "<uint64>" "";
    PrimaryCache "primarycache" "PRIMARYCACHE" Choice Inherited FVS "all | none | metadata" "all";
    SecondaryCache "secondarycache" "SECONDARYCACHE" Choice Inherited FVS "all | none | metadata" "all";
    UsedBySnapshots "usedbysnapshots" "USEDSNAP" Size ReadOnly FV "<size>" "";
    UsedByDataset "usedbydataset" "USEDDS" Size ReadOnly FV "<size>" "";
    UsedByChildren "usedbychildren" "USEDCHILD" Size ReadOnly FV "<size>" "";
    UsedByRefReservation "usedbyrefreservation" "USEDREFRESERV" Size ReadOnly FV "<size>" "";
    DeferDestroy "defer_destroy" "DEFER_DESTROY" Choice ReadOnly SNAPSHOT "yes | no" "";
    UserRefs "userrefs" "USERREFS" Number ReadOnly SNAPSHOT "<count>" "";
    LogBias "logbias" "LOGBIAS" Choice Inherited FV "latency | throughput" "latency";
    ObjSetId "objsetid" "OBJSETID" Number ReadOnly FVS "<uint64>" "";
    Dedup "dedup" "DEDUP" Choice Inherited FV "on | off | verify | sha256[,verify] | sha512[,verify] | skein[,verify] | edonr,verify" "off";
    MlsLabel "mlslabel" "MLSLABEL" Text Inherited FVS "<sensitivity label>" "none";
    Sync "sync" "SYNC" Choice Inherited FV "standard | always | disabled" "standard";
    DNodeSize "dnodesize" "DNSIZE" Choice Inherited FILE_SYSTEM "legacy | auto | 1k | 2k | 4k | 8k | 16k" "legacy";
    RefCompressRatio "refcompressratio" "REFRATIO" Number ReadOnly FVS "<1.00x or higher if compressed>" "";
    Written "written" "WRITTEN" Size ReadOnly FVS "<size>" "";
    Clones "clones" "CLONES" Text ReadOnly SNAPSHOT "<dataset>[,...]" "";
    LogicalUsed "logicalused" "LUSED" Size ReadOnly FV "<size>" "";
    LogicalReferenced "logicalreferenced" "LREFER" Size ReadOnly ALL "<size>" "";
    VolMode "volmode" "VOLMODE" Choice Inherited FV "default | full | geom | dev | none" "default";
    FileSystemLimit "filesystem_limit" "FSLIMIT" Number Local FILE_SYSTEM "<count> | none" "none";
    SnapshotLimit "snapshot_limit" "SSLIMIT" Number Local FV "<count> | none" "none";
    FileSystemCount "filesystem_count" "FSCOUNT" Number ReadOnly FILE_SYSTEM "<count>" "none";
    SnapshotCount "snapshot_count" "SSCOUNT" Number ReadOnly FV "<count>" "none";
    SnapDev "snapdev" "SNAPDEV" Choice Inherited FV "hidden | visible" "hidden";
    AclType "acltype" "ACLTYPE" Choice Inherited FS "off | nfsv4 | posix" "off";
    Context "context" "CONTEXT" Text Local FVS "<selinux context>" "none";
    FsContext "fscontext" "FSCONTEXT" Text Local FVS "<selinux fscontext>" "none";
    DefContext "defcontext" "DEFCONTEXT" Text Local FVS "<selinux defcontext>" "none";
    RootContext "rootcontext" "ROOTCONTEXT" Text Local FVS "<selinux rootcontext>" "none";
    RelATime "relatime" "RELATIME" Choice Inherited FILE_SYSTEM "on | off" "off";
    RedundantMetadata "redundant_metadata" "REDUND_MD" Choice Inherited FV "all | most | some | none" "all";
    Overlay "overlay" "OVERLAY" Choice Inherited FILE_SYSTEM "on | off" "on";
    ReceiveResumeToken "receive_resume_token" "RESUMETOK" Text ReadOnly FV "<string token>" "";
    Encryption "encryption" "ENCRYPTION" Choice Once FVS
        "on | off | aes-128-ccm | aes-192-ccm | aes-256-ccm | aes-128-gcm | aes-192-gcm | aes-256-gcm" "off";
    KeyLocation "keylocation" "KEYLOCATION" Text Local FV "prompt | <file URI> | <https URL> | <http URL>" "none";
    KeyFormat "keyformat" "KEYFORMAT" Choice OnceLocal FV "none | raw | hex | passphrase" "none";
    Pbkdf2Iters "pbkdf2iters" "PBKDF2ITERS" Number OnceLocal FV "<iters>" "0";
    EncryptionRoot "encryptionroot" "ENCROOT" Text ReadOnly FVS "<filesystem | volume>" "";
    KeyStatus "keystatus" "KEYSTATUS" Choice ReadOnly FVS "none | unavailable | available" "";
    SpecialSmallBlocks "special_small_blocks" "SPECIAL_SMALL_BLOCKS" Size Inherited FILE_SYSTEM "zero or 512 to 1M, power of 2" "0";
    RedactSnaps "redact_snaps" "RSNAPS" Text ReadOnly ALL "<snapshot>[,...]" "";
    Name "name" "NAME" Text ReadOnly ALL "" "";
}

/// Other names that libzfs takes: its column headers, in lower letters.
fn by_header(word: &str) -> Option<Native> {
    ROWS.iter().find(|row| row.header.to_ascii_lowercase() == word).map(|row| row.property)
}

impl Native {
    /// By its name or its column's.
    pub fn named(word: &str) -> Option<Native> {
        ROWS.iter().find(|row| row.name == word).map(|row| row.property).or_else(|| by_header(word))
    }

    fn row(self) -> &'static Row {
        &ROWS[self as usize]
    }

    pub fn name(self) -> &'static str {
        self.row().name
    }

    pub fn header(self) -> &'static str {
        self.row().header
    }

    pub fn form(self) -> Form {
        self.row().form
    }

    pub fn attribute(self) -> Attribute {
        self.row().attribute
    }

    pub fn kinds(self) -> Kinds {
        self.row().kinds
    }

    /// The values that it takes, as usage texts and messages have them.
    pub fn values(self) -> &'static str {
        self.row().values
    }

    pub fn default(self) -> &'static str {
        self.row().default
    }

    /// Whether nothing sets it, or only a create.
    pub fn is_read_only(self) -> bool {
        matches!(self.attribute(), Attribute::ReadOnly | Attribute::Once | Attribute::OnceLocal)
    }

    /// Whether a create may set it.
    pub fn is_set_at_creation(self) -> bool {
        self.attribute() != Attribute::ReadOnly
    }

    pub fn is_inherited(self) -> bool {
        matches!(self.attribute(), Attribute::Inherited | Attribute::Once)
    }

    /// The four limits that the layer keeps.
    pub fn is_limit(self) -> bool {
        matches!(self, Native::Quota | Native::RefQuota | Native::Reservation | Native::RefReservation)
    }

    /// Whether a column of it stands to the right.
    pub fn is_right_aligned(self) -> bool {
        matches!(self.form(), Form::Size | Form::Number) && self != Native::Creation
    }

    /// The fewest letters of a column of it: those of its header, of a number with a unit, and of the longest word that it takes.
    pub fn least_width(self) -> usize {
        let least = match self {
            Native::Referenced => 8,
            Native::Compression => "zstd-fast-1000".len(),
            Native::Dedup => "sha256,verify".len(),
            Native::Type => "filesystem".len(),
            _ => match self.form() {
                Form::Choice => self.values().split(" | ").map(str::len).max().unwrap_or(0),
                Form::Size | Form::Number => 5,
                Form::Text => 0,
            },
        };
        least.max(self.header().len())
    }

    /// Whether usage texts and `get all` leave it out.
    pub fn is_hidden(self) -> bool {
        self == Native::Name
    }
}

impl fmt::Display for Native {
    fn fmt(&self, f: &mut fmt::Formatter<'_>) -> fmt::Result {
        f.write_str(self.name())
    }
}

#[cfg(test)]
mod tests {
    use super::*;

    #[test]
    fn rows_stand_at_their_numbers() {
        for (number, &property) in Native::ALL.iter().enumerate() {
            assert_eq!((property as usize, property.row().property), (number, property));
            assert_eq!(Native::named(property.name()), Some(property));
        }
    }

    #[test]
    fn headers_are_names_too() {
        assert_eq!(Native::named("avail"), Some(Native::Available));
        assert_eq!(Native::named("refer"), Some(Native::Referenced));
        assert_eq!(Native::named("REFER"), None);
        assert_eq!(Native::named("refreserv"), Some(Native::RefReservation));
        assert_eq!(Native::named("nothing"), None);
    }
}
