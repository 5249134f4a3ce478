//! Names of datasets, as entity_namecheck of OpenZFS checks them.

use crate::failure::Reason;
use crate::property::Kinds;
use std::borrow::Cow;
use std::fs;

/// The most bytes of a name.
pub const NAME_LIMIT: usize = 255;

/// What stands after `@` in the layer where the host makes a snapshot for itself. No name is spelt so: a spelt `:.` has a character behind it.
pub const OWN: &str = ":.";

/// The most file systems on the way to one.
pub const DEPTH_LIMIT: usize = 50;

/// The parameter of the kernel's module that bounds the depth of a rename. A 0 counts as none.
const DEPTH_PARAMETER: &str = "/sys/module/zcommon/parameters/zfs_max_dataset_nesting";

/// The most file systems on the way to one that a rename makes: `DEPTH_LIMIT`, or what the kernel's parameter says where there is one.
pub fn rename_depth_limit() -> usize {
    let parameter = fs::read_to_string(DEPTH_PARAMETER).ok().and_then(|text| text.trim().parse().ok());
    parameter.filter(|&limit| limit > 0).unwrap_or(DEPTH_LIMIT)
}

/// The file system of a name: what stands before `@` or `#`.
pub fn base(name: &str) -> &str {
    name.split(['@', '#']).next().unwrap_or(name)
}

/// The pool of a name.
pub fn pool(name: &str) -> &str {
    name.split(['/', '@', '#']).next().unwrap_or(name)
}

/// The file system above one.
pub fn parent(name: &str) -> Option<&str> {
    name.rsplit_once('/').map(|(above, _)| above)
}

/// What stands after `@`.
pub fn snapshot(name: &str) -> Option<&str> {
    name.split_once('@').map(|(_, component)| component)
}

/// What stands after `#`.
pub fn bookmark(name: &str) -> Option<&str> {
    name.split_once('#').map(|(_, component)| component)
}

/// A file system's or a snapshot's name in the layer: the pool is `p` there, and the rest is spelt.
pub fn in_layer(name: &str) -> String {
    ["p", &spelt(&name[pool(name).len()..])].concat()
}

/// A part of a name in the layer. The layer knows no blank and no `%`, so they stand there as `:._` and `:.-`, and a `:.` as `:..`; all else is the
/// same.
pub fn spelt(part: &str) -> Cow<'_, str> {
    if !part.contains([' ', '%']) && !part.contains(":.") {
        return part.into();
    }
    part.replace(":.", ":..").replace(' ', ":._").replace('%', ":.-").into()
}

/// The name of the file system or snapshot that the layer calls so.
pub fn out_of_layer(pool: &str, name: &str) -> Option<String> {
    let below = name.strip_prefix('p')?;
    Some(format!("{pool}{}", below.replace(":._", " ").replace(":.-", "%").replace(":..", ":.")))
}

/// Whether a name is too long, here or in the layer. What stands after `#` isn't spelt there.
pub fn is_too_long(name: &str) -> bool {
    name.len() > NAME_LIMIT || bookmark(name).is_none() && in_layer(name).len() > NAME_LIMIT
}

/// Whether a file system stands below another.
pub fn is_below(name: &str, above: &str) -> bool {
    name.strip_prefix(above).is_some_and(|rest| rest.starts_with('/'))
}

fn is_valid(character: char) -> bool {
    character.is_ascii_alphanumeric() || "-_.: ".contains(character)
}

/// Checks a name that a command gives, for datasets of these kinds. A name that will be made has no `%`, and fits into the layer.
pub fn check(name: &str, kinds: Kinds, is_new: bool) -> Result<(), Reason> {
    if !kinds.meets(Kinds::SNAPSHOT) && name.contains('@') {
        return Err(Reason::SnapshotNotExpected);
    }
    if kinds == Kinds::SNAPSHOT && !name.contains('@') {
        return Err(Reason::SnapshotExpected);
    }
    if !kinds.meets(Kinds::BOOKMARK) && name.contains('#') {
        return Err(Reason::BookmarkNotExpected);
    }
    if kinds == Kinds::BOOKMARK && !name.contains('#') {
        return Err(Reason::BookmarkExpected);
    }
    if is_new && name.contains('%') {
        return Err(Reason::PercentInName);
    }
    if is_new && is_too_long(name) {
        return Err(Reason::NameTooLong);
    }
    check_components(name)
}

/// Checks the name of a pool.
pub fn check_pool(name: &str) -> Result<(), Reason> {
    if name.len() >= NAME_LIMIT - 1 - 2 * "$ORIGIN".len() {
        return Err(Reason::NameTooLong);
    }
    if let Some(bad) = name.chars().find(|&character| !is_valid(character)) {
        return Err(Reason::Text(format!("invalid character '{bad}' in pool name")));
    }
    if !name.starts_with(|first: char| first.is_ascii_alphabetic()) {
        return Err(Reason::Text("name must begin with a letter".into()));
    }
    Ok(())
}

fn check_components(name: &str) -> Result<(), Reason> {
    if name.len() > NAME_LIMIT {
        return Err(Reason::NameTooLong);
    }
    if name.starts_with('/') {
        return Err(Reason::LeadingSlash);
    }
    let mut rest = name;
    let mut is_delimited = false;
    loop {
        let end = rest.find(['/', '@', '#']).unwrap_or(rest.len());
        let (component, delimiter) = (&rest[..end], rest[end..].chars().next());
        if component.is_empty() && delimiter.is_none() && name.ends_with('/') {
            return Err(Reason::TrailingSlash);
        }
        check_component(component, matches!(delimiter, None | Some('/')))?;
        if matches!(delimiter, Some('@' | '#')) {
            if is_delimited {
                return Err(Reason::ManyDelimiters);
            }
            is_delimited = true;
        }
        if component.is_empty() {
            return Err(Reason::EmptyComponent);
        }
        match delimiter {
            None => return Ok(()),
            Some('/') if is_delimited => return Err(Reason::TrailingSlash),
            Some(_) => rest = &rest[end + 1..],
        }
    }
}

fn check_component(component: &str, is_whole: bool) -> Result<(), Reason> {
    if let Some(bad) = component.chars().find(|&character| !is_valid(character) && character != '%') {
        return Err(Reason::BadCharacter(bad));
    }
    match component {
        "." if is_whole => Err(Reason::SelfReference),
        ".." if is_whole => Err(Reason::ParentReference),
        _ => Ok(()),
    }
}

#[cfg(test)]
mod tests {
    use super::*;

    #[test]
    fn names_are_taken_apart() {
        assert_eq!((base("a/b@c"), pool("a/b@c"), parent("a/b")), ("a/b", "a", Some("a")));
        assert_eq!((snapshot("a@b"), bookmark("a#b"), snapshot("a")), (Some("b"), Some("b"), None));
        assert!(is_below("a/b", "a") && !is_below("ab", "a") && !is_below("a", "a"));
    }

    #[test]
    fn a_name_in_the_layer_is_of_one_name() {
        assert_eq!((in_layer("tank"), in_layer("tank/a-b/c:d_.e")), ("p".into(), "p/a-b/c:d_.e".into()));
        assert_eq!((in_layer("tank/a b%"), out_of_layer("back", "p/a:._b:.-")), ("p/a:._b:.-".into(), Some("back/a b%".into())));
        assert_eq!((out_of_layer("tank", "p"), out_of_layer("tank", "-"), out_of_layer("tank", "")), (Some("tank".into()), None, None));
        // All names of up to six of these.
        let mut names = vec![String::from("tank/")];
        for _ in 0..6 {
            let longer: Vec<String> = names.iter().flat_map(|name| [':', '.', '_', '-', ' ', '%'].map(|next| format!("{name}{next}"))).collect();
            for name in &longer {
                let there = in_layer(name);
                assert!(out_of_layer("tank", &there).as_ref() == Some(name) && !there.contains([' ', '%']), "{name}");
                assert_ne!(&there["p/".len()..], OWN, "{name}");
            }
            names = longer;
        }
    }

    #[test]
    fn each_mistake_has_its_reason() {
        let all = |name| check(name, Kinds::ALL, false);
        assert_eq!(all("a b/c:d-e_f.g@h%i"), Ok(()));
        for (name, reason) in [
            ("", Reason::EmptyComponent),
            ("/a", Reason::LeadingSlash),
            ("a/", Reason::TrailingSlash),
            ("a//b", Reason::EmptyComponent),
            ("a@", Reason::EmptyComponent),
            ("a@b@c", Reason::ManyDelimiters),
            ("a@b/c", Reason::TrailingSlash),
            ("a/b!", Reason::BadCharacter('!')),
            ("a/./b", Reason::SelfReference),
            ("a/..", Reason::ParentReference),
        ] {
            assert_eq!(all(name), Err(reason), "{name}");
        }
        let length = |length: usize| check(&"a".repeat(length), Kinds::ALL, false);
        assert_eq!((length(255), length(256)), (Ok(()), Err(Reason::NameTooLong)));
    }

    #[test]
    fn a_blank_takes_three_bytes_of_a_new_name() {
        let blanks = |base: &str, count: usize| check(&format!("{base}{}", " ".repeat(count)), Kinds::ALL, true);
        assert_eq!((blanks("tank/", 84), blanks("tank/", 85)), (Ok(()), Err(Reason::NameTooLong)));
        assert_eq!((blanks("tank/a@", 83), blanks("tank/a@", 84)), (Ok(()), Err(Reason::NameTooLong)));
        assert_eq!((blanks("tank/a#", 248), blanks("tank/a#", 249)), (Ok(()), Err(Reason::NameTooLong)));
        assert_eq!(check(&format!("tank/a@{}", " ".repeat(248)), Kinds::ALL, false), Ok(()));
    }

    #[test]
    fn kinds_say_which_delimiters_are_expected() {
        assert_eq!(check("a@b", Kinds::FV, false), Err(Reason::SnapshotNotExpected));
        assert_eq!(check("a", Kinds::SNAPSHOT, false), Err(Reason::SnapshotExpected));
        assert_eq!(check("a#b", Kinds::FVS, false), Err(Reason::BookmarkNotExpected));
        assert_eq!(check("a", Kinds::BOOKMARK, false), Err(Reason::BookmarkExpected));
        assert_eq!(check("a%b", Kinds::FV, true), Err(Reason::PercentInName));
    }
}
