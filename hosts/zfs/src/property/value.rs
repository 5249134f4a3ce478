//! Values that are set: what each property takes, and the form in which it is kept and shown.

use super::native::{Form, Native};
use crate::failure::Reason;
use crate::size;

/// The most bytes of a value, and of a user property's name.
const VALUE_LIMIT: usize = 8192;
const NAME_LIMIT: usize = 256;

/// The largest block of a file, and of a pool's records.
const BLOCK_LIMIT: u64 = 1 << 20;
const BLOCK_LEAST: u64 = 512;

/// A value as it is kept: a number in digits, a word by its first name.
pub fn checked(property: Native, value: &str) -> Result<String, Reason> {
    match property.form() {
        Form::Choice => choice(property, value).ok_or(Reason::NotOneOf(property)),
        Form::Size | Form::Number => number(property, value).map(|number| number.map_or("none".into(), |number| number.to_string())),
        Form::Text => text(property, value),
    }
}

fn text(property: Native, value: &str) -> Result<String, Reason> {
    if value.len() >= VALUE_LIMIT {
        return Err(Reason::Text(format!("'{property}' is too long")));
    }
    match property {
        Native::MountPoint => check_mount_point(value)?,
        Native::MlsLabel => return Err(Reason::Text("mlslabels are unsupported".into())),
        Native::KeyLocation if !is_key_location(value) => return Err(Reason::Text("invalid keylocation".into())),
        Native::Pbkdf2Iters if size::parsed(value).is_ok_and(|number| number < ITERATIONS_LEAST) => {
            return Err(Reason::Text(format!("minimum pbkdf2 iterations is {ITERATIONS_LEAST}")));
        }
        Native::KeyLocation if value != "none" => return Err(Reason::Text("keylocation must be 'none' for unencrypted datasets".into())),
        Native::ShareNfs | Native::ShareSmb => check_share(property, value)?,
        _ => {}
    }
    Ok(value.to_owned())
}

fn check_mount_point(value: &str) -> Result<(), Reason> {
    if matches!(value, "none" | "legacy") {
        return Ok(());
    }
    if !value.starts_with('/') {
        return Err(Reason::Text("'mountpoint' must be an absolute path, 'none', or 'legacy'".into()));
    }
    if value.split('/').any(|component| component.len() >= NAME_LIMIT) {
        return Err(Reason::Text("component of 'mountpoint' is too long".into()));
    }
    Ok(())
}

/// A share's options, as libshare reads them: over NFS words with commas between them, of which each may be empty or have a value; over SMB none.
fn check_share(property: Native, value: &str) -> Result<(), Reason> {
    let is_known = |word: &str| NFS_OPTIONS.contains(&word.split('=').next().unwrap_or_default());
    let is_fine = match value {
        "on" | "off" => true,
        _ if property == Native::ShareSmb => false,
        _ => value.split(',').filter(|word| !word.is_empty()).all(is_known),
    };
    if is_fine { Ok(()) } else { Err(Reason::Text(format!("'{property}' cannot be set to invalid options"))) }
}

/// The options of a share over NFS.
const NFS_OPTIONS: [&str; 34] = [
    "ro", "rw", "sec", "anon", "root_mapping", "nosub", "insecure", "secure", "async", "sync", "no_wdelay", "wdelay", "nohide", "hide",
    "crossmnt", "no_subtree_check", "subtree_check", "insecure_locks", "secure_locks", "no_auth_nlm", "auth_nlm", "no_acl", "mountpoint", "mp",
    "fsuid", "refer", "replicas", "root_squash", "no_root_squash", "all_squash", "no_all_squash", "fsid", "anonuid", "anongid",
];

/// A number, or none for `none`.
fn number(property: Native, value: &str) -> Result<Option<u64>, Reason> {
    match value {
        "none" if property.is_limit() => return Ok(Some(0)),
        "none" => return if matches!(property, Native::FileSystemLimit | Native::SnapshotLimit) { Ok(None) } else { Ok(Some(0)) },
        "auto" if property == Native::RefReservation => return Err(Reason::Text("'refreservation=auto' only allowed on volumes".into())),
        "auto" => return Err(Reason::Text(format!("'auto' is invalid value for '{property}'"))),
        _ => {}
    }
    let number = size::parsed(value)?;
    match property {
        Native::Quota | Native::RefQuota if number == 0 => Err(Reason::Text("use 'none' to disable quota/refquota".into())),
        Native::RecordSize | Native::VolBlockSize if !is_block_size(number) => {
            Err(Reason::Text(format!("'{property}' must be power of 2 from 512B to 1M")))
        }
        Native::SpecialSmallBlocks if number != 0 && !is_block_size(number) => {
            Err(Reason::Text(format!("invalid '{property}={number}' property: must be zero or a power of 2 from 512B to 1M")))
        }
        _ => Ok(Some(number)),
    }
}

/// The fewest iterations of a key's derivation.
const ITERATIONS_LEAST: u64 = 100_000;

fn is_key_location(value: &str) -> bool {
    matches!(value, "none" | "prompt") || ["file:///", "https://", "http://"].iter().any(|scheme| value.starts_with(scheme))
}

fn is_block_size(number: u64) -> bool {
    (BLOCK_LEAST..=BLOCK_LIMIT).contains(&number) && number.is_power_of_two()
}

/// A word by its first name, or none where the property doesn't take it.
fn choice(property: Native, value: &str) -> Option<String> {
    let first = match (property, value) {
        (Native::Compression, "gzip-6") => "gzip",
        (Native::Compression, _) if is_compression(value) => value,
        (Native::Compression, _) => return None,
        (Native::Checksum, "noparity") => value,
        (Native::Dedup, "sha256,verify" | "sha512,verify" | "skein,verify" | "sha256" | "sha512" | "skein") => value,
        (Native::AclType, "disabled" | "noacl") => "off",
        (Native::AclType, "posixacl") => "posix",
        (Native::AclInherit, "secure") => "restricted",
        (Native::XAttr, "dir") => "on",
        (Native::VolMode, "geom") => "full",
        (Native::Version, "current") => "5",
        _ => property.values().split(" | ").find(|&word| word == value && !word.contains('['))?,
    };
    Some(first.to_owned())
}

fn is_compression(value: &str) -> bool {
    let level = |prefix: &str| value.strip_prefix(prefix).filter(|rest| !rest.starts_with('0')).and_then(|rest| rest.parse::<u32>().ok());
    matches!(value, "on" | "off" | "lzjb" | "gzip" | "zle" | "lz4" | "zstd" | "zstd-fast")
        || level("gzip-").is_some_and(|number| (1..=9).contains(&number))
        || level("zstd-fast-").is_some_and(|number| matches!(number, 1..=10 | 20 | 30 | 40 | 50 | 60 | 70 | 80 | 90 | 100 | 500 | 1000))
        || level("zstd-").is_some_and(|number| (1..=19).contains(&number))
}

/// Whether a word is a user property's name: it has a colon, and only lower letters, digits and `:-._`.
pub fn is_user_name(word: &str) -> bool {
    word.contains(':') && word.bytes().all(|byte| byte.is_ascii_lowercase() || byte.is_ascii_digit() || b":+-._".contains(&byte))
}

/// A user property's name and value within their limits.
pub fn check_user(name: &str, value: &str) -> Result<(), Reason> {
    if name.len() >= NAME_LIMIT {
        return Err(Reason::Text(format!("property name '{name}' is too long")));
    }
    if value.len() >= VALUE_LIMIT {
        return Err(Reason::Text("property value too long".into()));
    }
    Ok(())
}

#[cfg(test)]
mod tests {
    use super::*;

    #[test]
    fn choices_are_kept_by_their_first_name() {
        assert_eq!(checked(Native::Compression, "gzip-6").unwrap(), "gzip");
        assert_eq!(checked(Native::Compression, "zstd-fast-500").unwrap(), "zstd-fast-500");
        assert_eq!(checked(Native::XAttr, "dir").unwrap(), "on");
        assert_eq!(checked(Native::Dedup, "sha512,verify").unwrap(), "sha512,verify");
        for bad in ["gzip-0", "gzip-10", "zstd-20", "zstd-fast-11", "gzip-[1-9]", "ON", ""] {
            assert!(checked(Native::Compression, bad).is_err(), "{bad}");
        }
    }

    #[test]
    fn numbers_stand_in_their_limits() {
        assert_eq!(checked(Native::RecordSize, "128K").unwrap(), "131072");
        assert!(checked(Native::RecordSize, "1000").is_err());
        assert!(checked(Native::RecordSize, "2M").is_err());
        assert_eq!(checked(Native::Quota, "none").unwrap(), "0");
        assert_eq!(checked(Native::Quota, "0").unwrap_err().to_string(), "use 'none' to disable quota/refquota");
        assert_eq!(checked(Native::SnapshotLimit, "none").unwrap(), "none");
    }

    #[test]
    fn mount_points_are_absolute() {
        assert!(checked(Native::MountPoint, "/a/b").is_ok());
        assert!(checked(Native::MountPoint, "legacy").is_ok());
        assert!(checked(Native::MountPoint, "a/b").is_err());
    }

    /// What `sa_validate_shareopts` of libzfs 2.1.11 takes.
    #[test]
    fn shares_have_known_options() {
        let is_taken = |property, value| checked(property, value).is_ok();
        for good in ["on", "off", "", ",", "rw", "rw,,ro", "rw=@10.0.0.0/8:host,no_root_squash", "anon=0,mp", "sec="] {
            assert!(is_taken(Native::ShareNfs, good), "{good}");
        }
        for bad in ["ON", "foo", "foo=bar", "rw,foo", " rw", "rw ", "=rw", "none"] {
            assert!(!is_taken(Native::ShareNfs, bad), "{bad}");
        }
        assert!(is_taken(Native::ShareSmb, "on") && is_taken(Native::ShareSmb, "off"));
        assert!(!is_taken(Native::ShareSmb, "") && !is_taken(Native::ShareSmb, "rw,ro"));
    }

    #[test]
    fn user_names_have_a_colon() {
        assert!(is_user_name("com.example:policy"));
        assert!(!is_user_name("policy"));
        assert!(!is_user_name("Com:x"));
    }
}
