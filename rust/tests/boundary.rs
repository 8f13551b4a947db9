//! Holds the two texts of the boundary to each other: the `#[repr(C)]` structs and the exported
//! functions of crates/*/src/*.rt, and sys/src/lib.rs. Fields and parameters have to be the same,
//! in the same order, with the same names and types; a slice is a pointer and a count.

use std::collections::BTreeMap;
use std::fs;
use std::path::{Path, PathBuf};

const PREFIX: &str = "sheafsledge_";

/// A name and its type, as C has it.
type Typed = (String, String);

#[derive(Debug, Default, PartialEq)]
struct Side {
    /// The fields of each struct.
    structs: BTreeMap<String, Vec<Typed>>,
    /// The parameters of each function, and the answer as the last.
    functions: BTreeMap<String, Vec<Typed>>,
}

/// What a text declares. `parameter` says what a parameter is to C.
fn declared(text: &str, function: &str, parameter: fn(Typed) -> Vec<Typed>, side: &mut Side) {
    let text = without_comments(text);
    for part in text.split("#[repr(C)]").skip(1) {
        let (name, fields) = fields(part);
        let before = side.structs.insert(name.to_string(), fields);
        assert_eq!(before, None, "the struct {name} is there twice");
    }
    for part in text.split(function).skip(1) {
        let (name, rest) = part.split_once('(').expect("a function has parameters");
        let (parameters, rest) = rest.split_once(')').expect("its parameters end");
        let mut all: Vec<Typed> = list(parameters).map(typed).flat_map(parameter).collect();
        all.push(("->".to_string(), answer(rest)));
        let before = side.functions.insert(name.to_string(), all);
        assert_eq!(before, None, "the function {name} is there twice");
    }
}

/// A struct's name, and its fields: in a tuple struct they are numbered.
fn fields(text: &str) -> (&str, Vec<Typed>) {
    let (_, text) = text
        .split_once("pub struct ")
        .expect("a struct is declared");
    let begins = text.find(['{', '(']).expect("a struct has a body");
    let ends = text.find(['}', ')']).expect("a struct's body ends");
    let items = list(&text[begins + 1..ends]).enumerate();
    let fields = items.map(|(i, item)| match item.contains(':') {
        true => typed(item),
        false => typed(&format!("{i}: {}", item.trim_start_matches("pub "))),
    });
    (text[..begins].trim(), fields.collect())
}

fn without_comments(text: &str) -> String {
    let lines = text
        .lines()
        .map(|line| line.split("//").next().unwrap_or(""));
    lines.collect::<Vec<_>>().join("\n")
}

/// The items of a list, which commas divide.
fn list(text: &str) -> impl Iterator<Item = &str> {
    text.split(',')
        .map(str::trim)
        .filter(|item| !item.is_empty())
}

fn typed(item: &str) -> Typed {
    let (name, ty) = item
        .split_once(':')
        .unwrap_or_else(|| panic!("no type: {item}"));
    let name = name.trim().trim_start_matches("pub ");
    (name.to_string(), ty.trim().to_string())
}

/// The answer's type; `()` where there is none.
fn answer(rest: &str) -> String {
    let ends = |c: char| c.is_whitespace() || c == ';' || c == '{';
    match rest.trim_start().strip_prefix("->") {
        Some(ty) => ty.trim_start().split(ends).next().unwrap_or("").to_string(),
        None => "()".to_string(),
    }
}

/// What a parameter in Rattle is to C: a slice is two, a reference to anything else a pointer.
fn crossed((name, ty): Typed) -> Vec<Typed> {
    let (pointer, held) = match (ty.strip_prefix("&mut "), ty.strip_prefix('&')) {
        (Some(held), _) => ("*mut", held),
        (None, Some(held)) => ("*const", held),
        (None, None) => return vec![(name, ty)],
    };
    // A slice has no `;` outside its elements: [u8] and [[usize; 2]] are, [u64; 10] is not.
    let inside = held
        .strip_prefix('[')
        .and_then(|held| held.strip_suffix(']'));
    match inside.filter(|inside| inside.starts_with('[') || !inside.contains(';')) {
        Some(element) => vec![
            (name, format!("{pointer} {element}")),
            ("its count".to_string(), "usize".to_string()),
        ],
        None => vec![(name, format!("{pointer} {held}"))],
    }
}

/// Both sides have names for the lengths of arrays; here they are in figures.
fn in_figures(text: &str, lengths: &[(&str, &str)]) -> String {
    lengths
        .iter()
        .fold(text.to_string(), |text, (name, length)| {
            text.replace(&format!("; {name}]"), &format!("; {length}]"))
        })
}

/// The lengths that a text names.
fn lengths(text: &str) -> impl Iterator<Item = (&str, &str)> {
    let lines = text.lines();
    let named = lines.filter_map(|line| line.strip_prefix("pub const ")?.split_once(": usize = "));
    named.map(|(name, length)| (name, length.trim_end_matches(';')))
}

/// The lengths that a text of the library takes from another crate: two may have the same name there.
fn used<'t>(text: &'t str, crates: &'t BTreeMap<String, String>) -> Vec<(&'t str, &'t str)> {
    let paths = text.lines().filter_map(|line| line.strip_prefix("use "));
    let paths = paths.filter_map(|path| path.trim_end_matches(';').split_once("::"));
    let named = paths.flat_map(|(krate, names)| {
        list(names.trim_matches(['{', '}'])).map(move |name| (krate, name))
    });
    let found = named.filter_map(|(krate, name)| {
        let mut there = lengths(crates.get(krate)?);
        there.find(|(named, _)| *named == name)
    });
    found.collect()
}

/// In Rust a count comes after its pointer, under any name.
fn counts_named(functions: &mut BTreeMap<String, Vec<Typed>>, theirs: &Side) {
    for (name, parameters) in functions {
        let counted = theirs.functions.get(name).into_iter().flatten();
        for (ours, theirs) in parameters.iter_mut().zip(counted) {
            if theirs.0 == "its count" {
                ours.0.clone_from(&theirs.0);
            }
        }
    }
}

fn sources(root: &Path) -> Vec<PathBuf> {
    let mut found: Vec<PathBuf> = Vec::new();
    for krate in fs::read_dir(root.join("crates"))
        .expect("crates/ is there")
        .flatten()
    {
        let source = fs::read_dir(krate.path().join("src"))
            .into_iter()
            .flatten()
            .flatten();
        found.extend(source.map(|entry| entry.path()));
    }
    found.retain(|path| path.extension().is_some_and(|kind| kind == "rt"));
    found.sort();
    found
}

/// The name of the crate that a source is of.
fn crate_of(source: &Path) -> String {
    let folder = source.ancestors().nth(2).and_then(Path::file_name);
    let name = folder.expect("a source stands in its crate's src/");
    name.to_string_lossy().into_owned()
}

fn boundary() -> String {
    let path = Path::new(env!("CARGO_MANIFEST_DIR")).join("sys/src/lib.rs");
    fs::read_to_string(path).expect("sys/src/lib.rs is there")
}

fn both() -> (Side, Side) {
    let here = Path::new(env!("CARGO_MANIFEST_DIR"));
    let (mut library, mut rust) = (Side::default(), Side::default());
    let read = |path: &PathBuf| fs::read_to_string(path).expect("a source is text");
    let texts: Vec<(String, String)> = sources(&here.join(".."))
        .iter()
        .map(|path| (crate_of(path), read(path)))
        .collect();
    let mut crates = BTreeMap::<String, String>::new();
    for (krate, text) in &texts {
        *crates.entry(krate.clone()).or_default() += text;
    }
    for (krate, text) in &texts {
        let own = lengths(&crates[krate]);
        let lengths: Vec<_> = own.chain(used(text, &crates)).collect();
        let text = in_figures(text, &lengths);
        declared(&text, "pub extern \"C\" fn ", crossed, &mut library);
    }
    let text = boundary();
    let text = text
        .split("macro_rules!")
        .next()
        .expect("a part before the macros");
    let text = in_figures(text, &lengths(text).collect::<Vec<_>>());
    declared(&text, "pub fn ", |typed| vec![typed], &mut rust);
    counts_named(&mut rust.functions, &library);
    (library, rust)
}

/// One line for each name whose two sides differ.
fn differences(
    library: &BTreeMap<String, Vec<Typed>>,
    rust: &BTreeMap<String, Vec<Typed>>,
) -> Vec<String> {
    let names: std::collections::BTreeSet<_> = library.keys().chain(rust.keys()).collect();
    let differ = names
        .into_iter()
        .filter(|name| library.get(*name) != rust.get(*name));
    let line = |name: &String| {
        let said = |side: Option<&Vec<Typed>>| side.map_or("nothing".into(), |all| shown(all));
        format!(
            "{name}: the library has {}; sys/src/lib.rs has {}",
            said(library.get(name)),
            said(rust.get(name))
        )
    };
    differ.map(line).collect()
}

fn shown(all: &[Typed]) -> String {
    let each = all.iter().map(|(name, ty)| format!("{name}: {ty}"));
    format!("({})", each.collect::<Vec<_>>().join(", "))
}

#[test]
fn the_structs_are_the_librarys() {
    let (library, rust) = both();
    assert!(
        !library.structs.is_empty(),
        "no #[repr(C)] struct was found in crates/"
    );
    let differ = differences(&library.structs, &rust.structs);
    assert!(differ.is_empty(), "\n{}", differ.join("\n"));
}

#[test]
fn each_struct_is_held_to_its_layout() {
    let (_, rust) = both();
    let text = boundary();
    let said = |how: &str| text.contains(how);
    let held = |name: &&String| {
        said(&format!("\nlaid_out!({name}: ")) || said(&format!("\nsized!({name}: "))
    };
    let missing: Vec<_> = rust.structs.keys().filter(|name| !held(name)).collect();
    assert!(
        missing.is_empty(),
        "no laid_out! and no sized! for {missing:?}"
    );
}

#[test]
fn the_functions_are_the_librarys() {
    let (library, rust) = both();
    assert!(
        !library.functions.is_empty(),
        "no exported function was found in crates/"
    );
    let strange = library
        .functions
        .keys()
        .find(|name| !name.starts_with(PREFIX));
    assert_eq!(strange, None, "an exported function without {PREFIX}");
    let differ = differences(&library.functions, &rust.functions);
    assert!(differ.is_empty(), "\n{}", differ.join("\n"));
}

#[test]
fn the_library_is_of_this_boundary() {
    // SAFETY: it is handed nothing.
    let number = unsafe { sheafsledge_sys::sheafsledge_boundary_4() };
    assert_eq!(number, sheafsledge_sys::BOUNDARY);
    let (_, rust) = both();
    let symbol = format!("{PREFIX}boundary_{number}");
    assert!(rust.functions.contains_key(&symbol), "no {symbol}");
}
