//! What a reader must believe stands apart from what private functions promise each other (`specs/Inner.antt`): no public promise
//! and no theorem of demands rests on an inner definition, unless a law ties that to the bits of the line.
use std::collections::{BTreeMap, BTreeSet};
use std::fs;
use std::path::{Path, PathBuf};

/// Programs, which no other code calls.
const PROGRAMS: [&str; 2] = ["listing", "rehearse"];

/// No code: its tests are computed by proofs too.
const LAWS: &str = "laws";

/// The module that says what stands on the line, bit by bit.
const LINE: (&str, &str) = ("sequences", "Line");

/// A definition: its crate, its module, its name.
type Name = (String, String, String);

/// What a file calls by a name, or by `alias.name`.
type Scope = BTreeMap<String, (String, String, Option<String>)>;

fn root() -> PathBuf {
    Path::new(env!("CARGO_MANIFEST_DIR")).join("..")
}

fn read(path: &Path) -> String {
    fs::read_to_string(path).unwrap_or_else(|error| panic!("{}: {error}", path.display()))
}

fn crates() -> Vec<String> {
    let listed = read(&root().join("crates.txt"));
    let names = listed.lines().filter(|line| !line.starts_with('#')).filter_map(|line| line.split_once(':')?.0.split(' ').next());
    names.map(str::to_string).collect()
}

/// The files of a folder with this ending, by their stem.
fn sources(folder: &Path, ending: &str) -> Vec<(String, String)> {
    let Ok(entries) = fs::read_dir(folder) else { return Vec::new() };
    let paths = entries.map(|entry| entry.expect("a folder can be listed").path());
    let wanted = paths.filter(|path| path.extension().is_some_and(|found| found == ending));
    wanted.map(|path| (path.file_stem().unwrap_or_default().to_string_lossy().to_string(), read(&path))).collect()
}

/// The words of a text, with `alias.name` as one word; comments are left out.
fn words(text: &str) -> impl Iterator<Item = &str> {
    let code = text.lines().filter(|line| !line.trim_start().starts_with("--"));
    code.flat_map(|line| line.split(|c: char| c.is_whitespace() || "(){};,«»".contains(c))).filter(|word| !word.is_empty())
}

/// What a file brings in from definitions of the crates. Declared types are left out: they hold no definition.
fn scope(text: &str) -> Scope {
    let mut found = Scope::new();
    for line in text.lines() {
        // What an `impl` brings in stands further right.
        let line = line.trim_start().trim_start_matches("ghost ").trim_end_matches(';');
        let Some((krate, rest)) = line.strip_prefix("use Rattle.").and_then(|rest| rest.split_once(".specs.")) else { continue };
        if let Some((module, names)) = rest.split_once(".{") {
            for name in names.trim_end_matches('}').split(", ") {
                let (name, called) = name.split_once(" as ").unwrap_or((name, name));
                found.insert(called.to_string(), (krate.to_string(), module.to_string(), Some(name.to_string())));
            }
        } else if let Some((module, alias)) = rest.split_once(" as ") {
            found.insert(alias.to_string(), (krate.to_string(), module.to_string(), None));
        }
    }
    found
}

/// Which definition a word of a file stands for. What stands behind a dot is of a module that has another name here, or a field.
fn meant(word: &str, scope: &Scope) -> Option<Name> {
    if let Some((krate, module, Some(name))) = scope.get(word) {
        return Some((krate.clone(), module.clone(), name.clone()));
    }
    let (alias, name) = word.split_once('.')?;
    let (krate, module, called) = scope.get(alias)?;
    let first = name.split('.').next().unwrap_or_default();
    Some((krate.clone(), module.clone(), called.clone().unwrap_or_else(|| first.to_string())))
}

/// The name that a paragraph of a file of definitions defines.
fn defined(paragraph: &str) -> Option<String> {
    let line = paragraph.lines().find(|line| !line.starts_with("--"))?;
    let line = line.strip_prefix("abbrev ").or_else(|| line.strip_prefix("unfoldable ")).unwrap_or(line);
    let line = line.strip_prefix("pub ").unwrap_or(line);
    let line = line.strip_prefix("record ").or_else(|| line.strip_prefix("data ")).unwrap_or(line);
    let name = line.split(' ').next()?;
    line[name.len()..].trim_start().starts_with([':', '(']).then(|| name.to_string())
}

/// Every definition of the crates, with the definitions that its text names.
fn definitions() -> BTreeMap<Name, BTreeSet<Name>> {
    let mut all = BTreeMap::new();
    for krate in crates() {
        for (module, text) in sources(&root().join("crates").join(&krate).join("specs"), "antt") {
            let paragraphs: Vec<&str> = text.split("\n\n").collect();
            let mut scope = scope(&text);
            for name in paragraphs.iter().filter_map(|paragraph| defined(paragraph)) {
                scope.insert(name.clone(), (krate.clone(), module.clone(), Some(name)));
            }
            for paragraph in paragraphs {
                let Some(name) = defined(paragraph) else { continue };
                let named = words(paragraph).filter_map(|word| meant(word, &scope)).collect();
                all.insert((krate.clone(), module.clone(), name), named);
            }
        }
    }
    all
}

/// What the promises of the public functions and methods of a source and of its conversions name.
fn promised(source: &str) -> BTreeSet<Name> {
    let scope = scope(source);
    let mut found = BTreeSet::new();
    let mut public = false;
    for line in source.lines().map(str::trim_start) {
        if line.starts_with("fn ") || line.starts_with("pub fn ") || line.starts_with("pub extern ") {
            public = line.starts_with("pub ");
        }
        if public && line.starts_with("ensures") || line.starts_with("ghost from_gives") {
            found.extend(words(line).filter_map(|word| meant(word, &scope)));
        }
    }
    found
}

/// What the promises of all crates name, and what the theorems of demands say.
fn believed(all: &BTreeMap<Name, BTreeSet<Name>>) -> BTreeSet<Name> {
    let mut found: BTreeSet<Name> = all.keys().filter(|(krate, _, _)| krate == "demands").cloned().collect();
    for krate in crates().iter().filter(|krate| !PROGRAMS.contains(&krate.as_str())) {
        found.extend(promised(&read(&root().join("crates").join(krate).join("src/lib.rt"))));
    }
    found
}

/// All that these definitions rest on, themselves included.
fn rested_on(first: BTreeSet<Name>, all: &BTreeMap<Name, BTreeSet<Name>>) -> BTreeSet<Name> {
    let mut found = first.clone();
    let mut open: Vec<Name> = first.into_iter().collect();
    while let Some(next) = open.pop() {
        for name in all.get(&next).into_iter().flatten() {
            if found.insert(name.clone()) {
                open.push(name.clone());
            }
        }
    }
    found
}

/// The definitions that the statement of a law names beside one of the line.
fn tied() -> BTreeSet<Name> {
    let mut found = BTreeSet::new();
    for krate in crates() {
        for (_, text) in sources(&root().join("crates").join(&krate).join("proofs"), "antt") {
            let scope = scope(&text);
            for line in text.lines().filter(|line| line.trim_start().starts_with("pub ") && line.contains(" : ")) {
                let named: BTreeSet<Name> = words(line).filter_map(|word| meant(word, &scope)).collect();
                if named.iter().any(|(krate, module, _)| (krate.as_str(), module.as_str()) == LINE) {
                    found.extend(named);
                }
            }
        }
    }
    found
}

/// A conversion promises what it gives in its `impl`, and a private function promises nothing that is believed.
#[test]
fn what_a_conversion_gives_is_promised_and_what_a_private_function_does_is_not() {
    let source = "\
ghost use Rattle.octets.specs.Octets.{is_bad, is_tag};

impl From<Refusal> for u8 {
    ghost use Rattle.refusals.specs.Refusals.{number};

    ghost from_gives = { λ r n. n ≡ number r };
}

pub fn outer(b: u8) -> bool
    ensures { result ≡ is_bad b }
{
}

fn inner(b: u8) -> bool
    ensures { result ≡ is_tag b }
{
}
";
    let name = |krate: &str, module: &str, name: &str| (krate.to_string(), module.to_string(), name.to_string());
    assert_eq!(promised(source), BTreeSet::from([name("refusals", "Refusals", "number"), name("octets", "Octets", "is_bad")]));
}

#[test]
fn no_public_promise_rests_on_an_inner_definition() {
    let all = definitions();
    let first = believed(&all);
    let by_a_method_alone = ("printing".to_string(), "Page".to_string(), "hex_octet".to_string());
    assert!(first.contains(&by_a_method_alone), "{by_a_method_alone:?} is what a promise names, and was not found to be");
    let rested = rested_on(first, &all);
    for (krate, module, name) in [("sequences", "Line", "framed"), ("framing", "Framing", "hunted"), ("steps", "Table", "rows")] {
        let name = (krate.to_string(), module.to_string(), name.to_string());
        assert!(rested.contains(&name), "{name:?} is what a promise rests on, and was not found to be");
    }
    let inner = all.keys().filter(|(_, module, _)| module == "Inner").count();
    assert!(inner > 15, "{inner} inner definitions were found");
    let tied = tied();
    let untied: Vec<&Name> = rested.iter().filter(|name| name.1 == "Inner" && !tied.contains(*name)).collect();
    assert!(untied.is_empty(), "a promise or a theorem rests on {untied:#?}, and no law ties that to the line");
}

/// The definitions that a table of `docs/PROMISES.md` leads a reader to.
fn shown(all: &BTreeMap<Name, BTreeSet<Name>>) -> BTreeSet<Name> {
    let page = read(&root().join("docs/PROMISES.md"));
    let rows = page.lines().filter(|line| line.starts_with('|'));
    let quoted: BTreeSet<&str> = rows.flat_map(|row| row.split('`').skip(1).step_by(2)).collect();
    all.keys().filter(|(_, _, name)| quoted.contains(name.as_str())).cloned().collect()
}

/// A definition outside `Inner` is one that a promise rests on, or that the page of promises leads to.
#[test]
fn what_only_private_functions_need_is_inner() {
    let all = definitions();
    let mut first = believed(&all);
    first.extend(shown(&all));
    let rested = rested_on(first, &all);
    let idle: Vec<&Name> = all
        .keys()
        .filter(|(krate, module, _)| module != "Inner" && krate != LAWS && !PROGRAMS.contains(&krate.as_str()))
        .filter(|name| !rested.contains(*name))
        .collect();
    assert!(idle.is_empty(), "no promise rests on {idle:#?}, and no row of the page of promises leads there");
}
