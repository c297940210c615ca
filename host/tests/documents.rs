//! The documents say what is there: every public function is listed with its promise, every name in a table of `docs/PROMISES.md`
//! stands for something in the repository, and what definitions quote are the customer's words.
use std::collections::{BTreeMap, BTreeSet};
use std::fs;
use std::path::{Path, PathBuf};

/// Programs, which no other code calls: their functions promise nothing to a host.
const PROGRAMS: [&str; 2] = ["listing", "rehearse"];

fn root() -> PathBuf {
    Path::new(env!("CARGO_MANIFEST_DIR")).join("..")
}

fn read(path: &Path) -> String {
    fs::read_to_string(path).unwrap_or_else(|error| panic!("{}: {error}", path.display()))
}

/// Every file below a folder.
fn files(folder: &Path) -> Vec<PathBuf> {
    let mut found = Vec::new();
    let Ok(entries) = fs::read_dir(folder) else { return found };
    for entry in entries {
        let path = entry.expect("a folder can be listed").path();
        if path.is_dir() {
            found.extend(files(&path));
        } else {
            found.push(path);
        }
    }
    found.sort();
    found
}

/// The crates of `crates.txt` that are in this repository. Behind a name may stand what is built of it.
fn crates() -> Vec<String> {
    read(&root().join("crates.txt"))
        .lines()
        .filter(|line| !line.starts_with('#'))
        .filter_map(|line| Some(line.split_once(':')?.0.split(' ').next()?.to_string()))
        .collect()
}

/// A public function as its source says it.
struct Function {
    requires: bool,
    ensures: String,
    changes: Vec<String>,
}

/// The public functions of a source, by name; a method behind its type. What a conversion gives is said by its impl.
fn public_functions(source: &str) -> BTreeMap<String, Function> {
    let mut found = BTreeMap::new();
    let lines: Vec<&str> = source.lines().collect();
    let mut of = String::new();
    for (at, line) in lines.iter().enumerate() {
        if let Some((_, head)) = line.split_once("impl").filter(|(before, _)| before.is_empty()) {
            let named = head.trim_end_matches('{').rsplit(" for ").next().unwrap_or_default().trim();
            let named = named.strip_prefix("<'a> ").unwrap_or(named);
            // a conversion into a number is called by no type of the crate
            of = if named == "u8" { String::new() } else { format!("{}::", named.split('<').next().unwrap_or_default()) };
        } else if *line == "}" {
            of.clear();
        }
        let converts = line.trim() == "fn from(r: Refusal) -> u8 {";
        let Some(rest) = line.trim_start().strip_prefix("pub fn ").or_else(|| line.strip_prefix("pub extern \"C\" fn ")).or(converts.then_some("from")) else {
            continue;
        };
        let name: String = rest.chars().take_while(|c| c.is_alphanumeric() || *c == '_').collect();
        let head: Vec<&str> = lines[at..].iter().copied().take_while(|line| line.trim() != "{" && !line.ends_with(") -> u8 {")).collect();
        let clauses = |word: &str| head.iter().filter(|line| line.trim_start().starts_with(word)).copied().collect::<Vec<_>>();
        let signature: String = head.iter().take_while(|line| !line.trim_start().starts_with("ensures")).copied().collect();
        let changes = signature
            .split(['(', ',', ')'])
            .filter(|parameter| parameter.contains("&mut "))
            .map(|parameter| parameter.split_once(':').map_or("self", |(name, _)| name).trim().to_string())
            .collect();
        let gives = lines[..at].iter().rev().find(|line| line.trim_start().starts_with("ghost from_gives"));
        found.insert(
            format!("{of}{name}"),
            Function {
                requires: !clauses("requires").is_empty(),
                ensures: if converts { gives.copied().unwrap_or_default().to_string() } else { clauses("ensures").join("\n") },
                changes,
            },
        );
    }
    found
}

/// The wrong programs of a must-fail edit, each with the function or law that must be refused for it.
fn wrong_programs(edit: &str) -> impl Iterator<Item = (String, String)> + '_ {
    edit.lines().filter_map(|line| {
        let (label, place) = line.strip_prefix("wrong: ")?.split_once(" in ")?;
        Some((label.to_string(), place.to_string()))
    })
}

/// The functions of a source with their bodies.
fn bodies(source: &str) -> BTreeMap<String, String> {
    let mut bodies: BTreeMap<String, String> = BTreeMap::new();
    let mut name = String::new();
    for line in source.lines() {
        if let Some((_, rest)) = line.trim_start().split_once("fn ").filter(|(before, _)| ["", "pub ", "pub extern \"C\" "].contains(before)) {
            name = rest.chars().take_while(|c| c.is_alphanumeric() || *c == '_').collect();
            bodies.insert(name.clone(), String::new());
        } else if let Some(body) = bodies.get_mut(&name) {
            body.push_str(line.split("//").next().unwrap_or_default());
            body.push('\n');
        }
    }
    bodies
}

/// A name that stands behind `::` is one of another crate.
fn is_other(c: char) -> bool {
    !(c.is_alphanumeric() || "_:".contains(c))
}

/// The functions of a source, each with the functions of the same source that it calls: a name in front of a parenthesis, or handed to a `map`.
fn calls(source: &str) -> BTreeMap<String, BTreeSet<String>> {
    let bodies = bodies(source);
    let named = |body: &String| {
        let heads = body.split('(').map(|head| head.rsplit(is_other).next());
        let handed = body.lines().filter(|line| line.contains(".map")).flat_map(|line| line.split(is_other)).map(Some);
        heads.chain(handed).flatten().map(str::to_string).filter(|word| bodies.contains_key(word)).collect()
    };
    bodies.iter().map(|(name, body)| (name.clone(), named(body))).collect()
}

/// The same, with each function that stands as an argument by itself: more than it calls, where a value is called as a function is.
fn calls_or_hands_on(source: &str) -> BTreeMap<String, BTreeSet<String>> {
    let bodies = bodies(source);
    let mut found = calls(source);
    for (name, body) in &bodies {
        let handed = body.split(['(', ',', ')']).map(str::trim).filter(|word| bodies.contains_key(*word)).map(str::to_string);
        found.entry(name.clone()).or_default().extend(handed);
    }
    found
}

#[test]
fn a_function_that_is_handed_on_is_one_that_is_called() {
    let source = "fn first(x: u8) {\n    each(x, second);\n}\n\nfn second(x: u8) {\n    third(x);\n}\n\nfn third(x: u8) {\n}\n";
    let first = BTreeSet::from(["first".to_string()]);
    let all = ["first", "second", "third"].map(str::to_string);
    assert_eq!(reached(&first, &calls(source)), first);
    assert_eq!(reached(&first, &calls_or_hands_on(source)), BTreeSet::from(all));
}

/// These functions, and all that they lead to.
fn reached(first: &BTreeSet<String>, calls: &BTreeMap<String, BTreeSet<String>>) -> BTreeSet<String> {
    let mut reached = first.clone();
    let mut open: Vec<String> = first.iter().cloned().collect();
    while let Some(next) = open.pop() {
        let called = calls[&next].iter().filter(|called| reached.insert((*called).clone())).cloned().collect::<Vec<_>>();
        open.extend(called);
    }
    reached
}

/// What definitions, laws, functions, types, constants and wrong programs are called in a crate.
fn names_in(krate: &str) -> BTreeSet<String> {
    let mut names = BTreeSet::new();
    let is_name = |c: char| !c.is_whitespace() && !"(){};,:".contains(c);
    let folder = root().join("crates").join(krate);
    // What a check leaves in `out/` has copies of sources, those of other crates among them.
    for path in files(&folder).into_iter().filter(|path| !path.starts_with(folder.join("out"))) {
        let stem = path.file_stem().unwrap_or_default().to_string_lossy().to_string();
        match path.extension().and_then(|e| e.to_str()) {
            Some("antt") => {
                names.insert(path.file_name().unwrap_or_default().to_string_lossy().to_string());
                for line in read(&path).lines() {
                    let line = line.trim_start();
                    let line = line.strip_prefix("abbrev ").or_else(|| line.strip_prefix("unfoldable ")).unwrap_or(line);
                    let line = line.strip_prefix("pub ").unwrap_or(line);
                    let line = line.strip_prefix("record ").or_else(|| line.strip_prefix("data ")).unwrap_or(line);
                    let name: String = line.chars().take_while(|c| is_name(*c)).collect();
                    if line[name.len()..].trim_start().starts_with([':', '(']) {
                        names.insert(name);
                    }
                }
            }
            Some("rt") => names.extend(declared(&read(&path))),
            Some("edit") => names.extend(wrong_programs(&read(&path)).map(|(label, _)| label)),
            _ => {
                names.insert(stem);
            }
        }
    }
    names
}

/// What is called something in the crates, and what tests and programs of the host are.
fn names() -> BTreeSet<String> {
    let mut names: BTreeSet<String> = crates().into_iter().collect();
    for krate in crates() {
        names.extend(names_in(&krate));
    }
    for path in files(&root().join("host/tests")).iter().chain(&files(&root().join("host/src"))) {
        names.insert(path.file_stem().unwrap_or_default().to_string_lossy().to_string());
        names.extend(declared(&read(path)));
    }
    names
}

/// What a source in Rattle or Rust declares, the cases of its enums among that.
fn declared(source: &str) -> Vec<String> {
    let mut in_enum = false;
    let is_case = |line: &&str| {
        in_enum = line.contains("enum ") || in_enum && *line != "}";
        in_enum && line.starts_with("    ") && line[4..].starts_with(char::is_uppercase) && line.ends_with(',')
    };
    let cases: Vec<String> =
        source.lines().filter(is_case).map(|line| line[4..].trim_end_matches(',').split('(').next().unwrap_or_default().to_string()).collect();
    source
        .lines()
        .flat_map(|line| ["fn ", "struct ", "enum ", "const "].into_iter().filter_map(move |word| Some(line.split_once(word)?.1)))
        .map(|rest| rest.chars().take_while(|c| c.is_alphanumeric() || *c == '_').collect())
        .chain(cases)
        .collect()
}

/// `docs/public-functions.tsv`: function, promise, what makes its results equal, the lent memory that it may change.
#[test]
fn every_public_function_is_listed_with_its_promise() {
    let text = read(&root().join("docs/public-functions.tsv"));
    let mut lines = text.lines();
    assert_eq!(lines.next(), Some("function\tpromise\tequal by\tmay change"));
    let names = names();
    let mut listed = BTreeSet::new();
    let mut sources = BTreeMap::new();
    for krate in crates().iter().filter(|krate| !PROGRAMS.contains(&krate.as_str())) {
        let source = read(&root().join("crates").join(krate).join("src/lib.rt"));
        for (name, function) in public_functions(&source) {
            sources.insert(format!("{krate}::{name}"), function);
        }
    }
    for line in lines {
        let fields: Vec<&str> = line.split('\t').collect();
        let [name, promise, equal_by, may_change] = fields[..] else { panic!("four fields in '{line}'") };
        assert!(listed.insert(name.to_string()), "{name} is listed twice");
        let function = sources.get(name).unwrap_or_else(|| panic!("no public function is called {name}"));
        assert!(!function.requires, "{name} has a `requires`");
        for word in promise.split(' ') {
            let word_stands = function.ensures.split(|c: char| c.is_whitespace() || "()«»".contains(c)).any(|w| w == word);
            assert!(word_stands, "the promise of {name} does not name {word}: {}", function.ensures);
        }
        if equal_by != "an equation" {
            assert!(names.contains(equal_by), "{name}: there is no law {equal_by}");
        }
        let changes = if function.changes.is_empty() { "nothing".to_string() } else { function.changes.join(" ") };
        assert_eq!(may_change, changes, "what {name} may change");
    }
    for (name, function) in &sources {
        assert!(!function.ensures.is_empty(), "{name} promises nothing");
        assert!(listed.contains(name), "{name} is not listed");
    }
}

/// A promise that nothing wrong was tried against may say too little. A wrong program counts for the public functions of its
/// crate that lead to it.
#[test]
fn every_public_function_has_its_wrong_programs() {
    let mut lacking = Vec::new();
    for krate in crates().iter().filter(|krate| !PROGRAMS.contains(&krate.as_str())) {
        let folder = root().join("crates").join(krate);
        let source = read(&folder.join("src/lib.rt"));
        let calls = calls(&source);
        let wrong: Vec<String> = files(&folder.join("must-fail"))
            .iter()
            .flat_map(|path| wrong_programs(&read(path)).map(|(_, place)| place).collect::<Vec<_>>())
            .collect();
        for name in public_functions(&source).into_keys() {
            let called = name.rsplit("::").next().unwrap_or_default().to_string();
            let reached = reached(&BTreeSet::from([called]), &calls);
            let tried = wrong.iter().filter(|place| reached.contains(*place)).count();
            if tried < 2 {
                lacking.push(format!("{krate}::{name}: {tried}"));
            }
        }
    }
    assert!(lacking.is_empty(), "fewer than two wrong programs: {lacking:#?}");
}

/// A name that is given in a table, in back quotes.
fn quoted(line: &str) -> impl Iterator<Item = &str> {
    line.split('`').skip(1).step_by(2)
}

#[test]
fn every_name_in_a_table_of_promises_stands_for_something() {
    let names = names();
    let missing: Vec<String> = read(&root().join("docs/PROMISES.md"))
        .lines()
        .filter(|line| line.starts_with('|'))
        .flat_map(|line| quoted(line).map(str::to_string).collect::<Vec<_>>())
        .filter(|name| {
            let last = name.rsplit("::").next().unwrap_or(name).trim_start_matches('.');
            let path = root().join(name).exists() || root().join("tests/vectors").join(name).exists();
            !(path || names.contains(last))
        })
        .collect();
    assert!(missing.is_empty(), "nothing is called {missing:?}");
}

#[test]
fn a_name_that_is_said_to_be_of_a_crate_stands_in_it() {
    let crates: BTreeMap<String, BTreeSet<String>> =
        crates().into_iter().map(|krate| (krate.clone(), names_in(&krate))).collect();
    let text = read(&root().join("docs/PROMISES.md"));
    let mut wrong = Vec::new();
    for part in text.lines().filter(|line| line.starts_with('|')).flat_map(|line| line.split(['|', ';'])) {
        let Some(names) = part.split_whitespace().next().and_then(|krate| crates.get(krate.trim_end_matches(':'))) else {
            continue;
        };
        let lacking = |name: &&str| !name.contains(['/', '.', ':']) && !names.contains(*name);
        wrong.extend(quoted(part).filter(lacking).map(|name| format!("{name} in '{}'", part.trim())));
    }
    for (name, krate) in text.lines().filter(|line| line.starts_with('|')).flat_map(quoted).filter_map(|name| {
        let (krate, name) = name.split_once("::")?;
        Some((name, krate))
    }) {
        if !crates.get(krate).is_some_and(|names| names.contains(name)) {
            wrong.push(format!("{krate}::{name}"));
        }
    }
    assert!(wrong.is_empty(), "not there: {wrong:#?}");
}

/// The words of a text, without what sets them off.
fn words(text: &str) -> String {
    let plain: String = text
        .to_lowercase()
        .chars()
        .filter(|c| !"`\"'*".contains(*c))
        .map(|c| if c.is_ascii_alphanumeric() || "=^+".contains(c) { c } else { ' ' })
        .collect();
    plain.split_whitespace().collect::<Vec<_>>().join(" ")
}

/// The sentences of a document: parts of its lines that end with a mark before a new beginning, and the rows of its tables.
fn sentences(document: &str) -> Vec<String> {
    let mut found = Vec::new();
    let mut code = false;
    for line in document.lines() {
        if line.starts_with("```") {
            code = !code;
        } else if code || line.starts_with('#') || line.chars().all(|c| "|-".contains(c)) {
            continue;
        } else if line.starts_with('|') {
            found.push(line.to_string());
        } else {
            let mut rest = line.trim_start_matches("- ");
            while let Some(end) = rest.char_indices().zip(rest.chars().skip(1).zip(rest.chars().skip(2))).find_map(
                |((at, mark), (space, next))| {
                    let begins = next.is_ascii_uppercase() || next.is_ascii_digit() || next == '"';
                    (".:;".contains(mark) && space == ' ' && begins).then_some(at + 1)
                },
            ) {
                found.push(rest[..end].to_string());
                rest = &rest[end + 1..];
            }
            found.push(rest.to_string());
        }
    }
    found
}

#[test]
fn every_sentence_of_document_01_has_its_row() {
    /// A row is known by how its sentence begins.
    const BEGINNING: usize = 5;
    let rows: Vec<String> = first_cells(&read(&root().join("docs/PROMISES.md")));
    let sentences = sentences(&read(&root().join("docs/document-01.md")));
    assert!(sentences.len() > 150, "{} sentences were found", sentences.len());
    let missing: Vec<&String> = sentences
        .iter()
        .filter(|sentence| {
            let words = words(sentence);
            let beginning = words.split(' ').take(BEGINNING).collect::<Vec<_>>().join(" ");
            !rows.iter().any(|row| row.contains(&beginning))
        })
        .collect();
    assert!(missing.is_empty(), "no row for {missing:#?}");
}

/// The words in the first cell of each row of a page.
fn first_cells(page: &str) -> Vec<String> {
    page.lines().filter_map(|line| Some(words(line.strip_prefix('|')?.split('|').next()?))).collect()
}

/// The part of a page below a heading, up to the next.
fn section<'a>(page: &'a str, heading: &str) -> &'a str {
    let start = page.find(&format!("\n{heading}")).unwrap_or_else(|| panic!("no heading begins with '{heading}'")) + 1;
    let rest = &page[start..];
    &rest[..rest.find("\n## ").unwrap_or(rest.len())]
}

/// The demands are few, so their rows hold them word by word: a sentence is one row, or several of which each goes on with the last.
#[test]
fn every_sentence_of_the_demands_stands_whole_in_the_rows_of_its_demand() {
    let promises = read(&root().join("docs/PROMISES.md"));
    let demands = read(&root().join("docs/demands.md"));
    let paragraphs: Vec<&str> = demands.lines().filter(|line| !line.is_empty() && !line.starts_with('#')).collect();
    assert_eq!(paragraphs.len(), 4, "three demands, and what is behind them");
    for (at, paragraph) in paragraphs.into_iter().enumerate() {
        let (heading, text) = match paragraph.strip_prefix(&format!("{}. ", at + 1)) {
            Some(demand) => (format!("## Demand {}:", at + 1), demand),
            None => ("## Behind the demands".to_string(), paragraph),
        };
        let rows = first_cells(section(&promises, &heading)).join(" ");
        let found = sentences(text);
        assert!(found.len() > 1, "{} sentences in '{text}'", found.len());
        for sentence in found {
            assert!(rows.contains(&words(&sentence)), "the rows below '{heading}' do not hold '{sentence}'");
        }
    }
}

/// The requests of document 02 that are in force, which its first line names: the number of each, its title and its text.
fn requests_in_force() -> Vec<(String, String, String)> {
    let page = read(&root().join("docs/document-02.md"));
    let numbers = page.lines().next().and_then(|line| line.strip_prefix("Requests in force: ")?.strip_suffix('.'));
    let request = |number: &str| {
        let paragraph = page.lines().find_map(|line| line.strip_prefix(&format!("**Req {number}. ")));
        let (title, text) = paragraph.and_then(|text| text.split_once(".** ")).unwrap_or_else(|| panic!("no request {number}"));
        (number.to_string(), title.to_string(), text.to_string())
    };
    numbers.expect("the first line says which are in force").split(", ").map(request).collect()
}

/// As those of the demands do, the rows of a request hold it word by word.
#[test]
fn every_sentence_of_a_request_in_force_stands_whole_in_its_rows() {
    let promises = read(&root().join("docs/PROMISES.md"));
    for (number, title, text) in requests_in_force() {
        let heading = format!("## Request {number}: {title}");
        let rows = first_cells(section(&promises, &heading)).join(" ");
        let found = sentences(&text);
        assert!(found.len() > 1, "{} sentences in '{text}'", found.len());
        for sentence in found {
            assert!(rows.contains(&words(&sentence)), "the rows below '{heading}' do not hold '{sentence}'");
        }
    }
}

/// Who reads README sees which requests are in force, and each has its note.
#[test]
fn readme_and_the_notes_are_of_the_requests_in_force() {
    let in_force: Vec<String> = requests_in_force().into_iter().map(|(number, _, _)| number).collect();
    let named: Vec<String> = read(&root().join("README.md"))
        .lines()
        .filter_map(|line| Some(line.strip_prefix("| [")?.split_once("](docs/requests/")?.0.to_string()))
        .collect();
    assert_eq!(named, in_force, "the table of requests in README.md");
    let notes: Vec<PathBuf> = in_force.iter().map(|number| root().join(format!("docs/requests/{number}.md"))).collect();
    assert_eq!(files(&root().join("docs/requests")), notes);
}

/// A text in one line, with one sign for all quotation marks: a quotation within a quotation has the other one.
fn in_one_line(text: &str) -> String {
    text.split_whitespace().collect::<Vec<_>>().join(" ").replace('\'', "\"")
}

/// What the comments of a file of definitions quote. A quotation may run over several lines of a comment.
fn quotations(definitions: &str) -> Vec<String> {
    let mut comments = vec![String::new()];
    for line in definitions.lines() {
        match line.trim_start().strip_prefix("--") {
            Some(comment) => *comments.last_mut().expect("there is a last one") += comment,
            None => comments.push(String::new()),
        }
    }
    let mut found = Vec::new();
    for comment in comments {
        assert!(comment.matches('"').count() % 2 == 0, "a quotation has no end: {comment}");
        found.extend(comment.split('"').skip(1).step_by(2).map(in_one_line));
    }
    found
}

/// Whether a quotation stands in a page, in whole words; `..` in it is for words that are left out.
fn stands_in(quotation: &str, page: &str) -> bool {
    let mut rest = page;
    quotation.split("..").map(str::trim).filter(|part| !part.is_empty()).all(|part| {
        let cuts_a_word = |inner: Option<char>, outer: Option<char>| [inner, outer].iter().all(|c| c.is_some_and(char::is_alphanumeric));
        let found = rest.match_indices(part).map(|(at, _)| (at, at + part.len())).find(|(start, end)| {
            !cuts_a_word(part.chars().next(), rest[..*start].chars().last()) && !cuts_a_word(part.chars().last(), rest[*end..].chars().next())
        });
        rest = found.map_or("", |(_, end)| &rest[end..]);
        found.is_some()
    })
}

/// Definitions are held against the words of the customer: a word that is not theirs would hide a difference.
#[test]
fn every_quotation_above_a_definition_is_exact() {
    let mut pages = ["docs/document-01.md", "docs/demands.md"].map(|page| in_one_line(&read(&root().join(page)))).to_vec();
    pages.extend(requests_in_force().iter().map(|(_, _, text)| in_one_line(text)));
    let exact = |quotation: &str| pages.iter().any(|page| stands_in(quotation, page));
    assert!(exact("If a 0 comes sooner, .. it also starts a sync."));
    let across_pages = "Te becomes 1,000. .. given at the start";
    for wrong in ["If a 0 comes later", "If a 0 comes soon", "it also starts a sync. .. If a 0 comes sooner", across_pages] {
        assert!(!exact(wrong), "'{wrong}' is taken for a quotation");
    }
    let mut found = 0;
    let mut wrong = Vec::new();
    for path in crates().iter().flat_map(|krate| files(&root().join("crates").join(krate).join("specs"))) {
        for quotation in quotations(&read(&path)) {
            found += 1;
            if !exact(&quotation) {
                wrong.push(format!("{}: \"{quotation}\"", path.display()));
            }
        }
    }
    assert!(found > 150, "{found} quotations were found");
    assert!(wrong.is_empty(), "neither in 01 nor in the demands nor in a request in force: {wrong:#?}");
}

/// What is read aloud is what stands in the crates today: each block of `docs/READING.md` names its file.
#[test]
fn what_is_read_aloud_is_the_text_of_its_file() {
    let page = read(&root().join("docs/READING.md"));
    let mut definitions = 0;
    for block in page.split("\n```").skip(1).step_by(2) {
        let (fence, text) = block.split_once('\n').expect("a block has a first line");
        let (_, path) = fence.split_once(' ').unwrap_or_else(|| panic!("the block '{fence}' names no file"));
        let file = read(&root().join(path));
        for paragraph in text.split("\n\n") {
            assert!(format!("\n{file}").contains(&format!("\n{paragraph}\n")), "{path} does not have:\n{paragraph}");
        }
        definitions += usize::from(path.contains("/specs/"));
    }
    assert!(definitions > 1, "{definitions} definitions are read aloud");
}

/// The file `KIT` keeps the line; the pages that name the kit say the same.
#[test]
fn the_pages_name_the_kit_that_is_kept() {
    let kept = read(&root().join("KIT"));
    let (kit, rest) = kept.split_once('\n').expect("the file is one line");
    assert!(kit.contains(" logic ") && rest.is_empty(), "the line of a kit: '{kept}'");
    let sum = kit.rsplit(' ').next().unwrap_or_default();
    for page in ["README.md", "docs/TRUST.md"] {
        let text = read(&root().join(page));
        assert!(text.contains(&format!("`{kit}`")), "{page} does not name {kit}");
    }
    let verdict = read(&root().join("docs/TRUST.md"));
    assert!(verdict.contains(&format!(" sum={sum} ")), "the verdict in docs/TRUST.md is of another logic than {sum}");
}

/// What a source brings in from proofs; what an `impl` brings in stands further right.
fn proofs_cited(source: &str) -> Vec<&str> {
    source.lines().map(str::trim_start).filter(|line| line.starts_with("ghost use") && line.contains(".proofs.")).collect()
}

/// What a promise says can be read in definitions alone.
#[test]
fn no_promise_of_the_library_cites_a_proof() {
    let within_an_impl = "impl Model for Page {\n    ghost use Rattle.printing.proofs.Pages.{Within};\n}\n";
    assert_eq!(proofs_cited(within_an_impl).len(), 1, "a proof that an impl cites is seen");
    for krate in crates().iter().filter(|krate| !PROGRAMS.contains(&krate.as_str())) {
        let source = read(&root().join("crates").join(krate).join("src/lib.rt"));
        let cited = proofs_cited(&source);
        assert!(cited.is_empty(), "{krate} cites {cited:?}");
    }
}

/// `docs/TRUST.md` says so of the stack: document 01 asks for one function that does.
#[test]
fn no_function_of_the_library_but_the_walk_over_blocks_calls_itself() {
    let mut found = Vec::new();
    for krate in crates().iter().filter(|krate| !PROGRAMS.contains(&krate.as_str())) {
        let calls = calls_or_hands_on(&read(&root().join("crates").join(krate).join("src/lib.rt")));
        for name in calls.keys() {
            if reached(&calls[name], &calls).contains(name) {
                found.push(format!("{krate}::{name}"));
            }
        }
    }
    assert_eq!(found, ["fields::walk_on"], "functions that call themselves");
}
