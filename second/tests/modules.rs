//! The source's own shape: no module imports itself by way of others, so each can be read after those it rests on.

use std::collections::{BTreeMap, BTreeSet};
use std::fs;
use std::path::{Path, PathBuf};

type Imports = BTreeMap<String, BTreeSet<String>>;

/// The source files of a folder, each with the name of its module, as `gen::tiny`.
fn modules(folder: &Path, within: &str) -> Vec<(String, PathBuf)> {
    let mut found = Vec::new();
    for entry in fs::read_dir(folder).unwrap() {
        let path = entry.unwrap().path();
        let name = format!("{within}{}", path.file_stem().unwrap().to_str().unwrap());
        if path.is_dir() {
            found.extend(modules(&path, &format!("{name}::")));
        } else {
            found.push((name, path));
        }
    }
    found
}

/// The longest module that a path names, as `gen::limits` for `gen::limits::near_need`.
fn module_of<'a>(path: &str, names: &'a BTreeSet<String>) -> Option<&'a String> {
    let ends = |name: &str| path == name || path.starts_with(&format!("{name}::"));
    names.iter().filter(|name| ends(name)).max_by_key(|name| name.len())
}

/// The paths that follow each `crate::` of a text: `crate::a::{b, c}` names `a::b` and `a::c`.
fn paths(text: &str) -> Vec<String> {
    let word = |text: &str| {
        text.trim_start().split(|c: char| !c.is_alphanumeric() && c != '_' && c != ':').next().unwrap().to_string()
    };
    let named = |after: &str| {
        let path = word(after);
        match after[path.len()..].strip_prefix('{').and_then(|inner| inner.split_once('}')) {
            Some((inner, _)) => inner.split(',').map(|part| path.clone() + &word(part)).collect(),
            None => vec![path],
        }
    };
    text.split("crate::").skip(1).flat_map(named).collect()
}

/// What each module imports. A module counts as importing those within it.
fn imports() -> Imports {
    let files = modules(&PathBuf::from(env!("CARGO_MANIFEST_DIR")).join("src"), "");
    let names: BTreeSet<String> = files.iter().map(|(name, _)| name.clone()).collect();
    let of = |name: &str, path: &PathBuf| {
        let named = paths(&fs::read_to_string(path).unwrap());
        let within = names.iter().filter(|inner| inner.starts_with(&format!("{name}::")));
        named.iter().filter_map(|path| module_of(path, &names)).chain(within).cloned().collect()
    };
    files.iter().map(|(name, path)| (name.clone(), of(name, path))).collect()
}

/// Takes away, again and again, the modules that import none of those left; what stays holds a circle.
fn circular(mut imports: Imports) -> Vec<String> {
    loop {
        let left: BTreeSet<String> = imports.keys().cloned().collect();
        imports.retain(|_, named| !named.is_disjoint(&left));
        if imports.len() == left.len() {
            return left.into_iter().collect();
        }
    }
}

#[test]
fn no_module_imports_itself_by_way_of_others() {
    let imports = imports();
    let seen = |module: &str, named: &str| imports[module].contains(named);
    assert!(seen("judge", "gen") && seen("gen::rooms", "gen::tiny") && seen("decide", "fast"), "{imports:?}");
    assert_eq!(circular(imports), Vec::<String>::new());
}

#[test]
fn a_circle_is_found() {
    let named = |names: &[&str]| names.iter().map(|name| name.to_string()).collect::<BTreeSet<_>>();
    let imports = [("a", named(&["b"])), ("b", named(&["c"])), ("c", named(&["b"])), ("d", named(&["a"]))];
    let imports = imports.map(|(name, names)| (name.to_string(), names)).into_iter().collect();
    assert_eq!(circular(imports), ["a", "b", "c", "d"]);
}
