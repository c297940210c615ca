//! What the sources of the library declare stands in the header, in the C test of the header and in this package alike: the
//! same structs with the same fields in the same order, the same functions, the same numbers. The compiler holds the header
//! against `tests/header.c` (`tests/header.sh`); here the numbers of that file are computed from the sources.
use std::{
    collections::BTreeMap,
    fs,
    path::{Path, PathBuf},
};

fn root() -> PathBuf {
    Path::new(env!("CARGO_MANIFEST_DIR")).join("..")
}

fn read(path: &str) -> String {
    fs::read_to_string(root().join(path)).unwrap_or_else(|error| panic!("{path}: {error}"))
}

fn source(krate: &str) -> String {
    read(&format!("crates/{krate}/src/lib.rt"))
}

/// The header without its comments.
fn header() -> String {
    let text = read("include/tailsprig.h");
    let mut parts = text.split("/*");
    let first = parts.next().unwrap_or_default().to_string();
    parts.fold(first, |bare, part| bare + part.split_once("*/").expect("a comment ends").1)
}

/// A name and its type, as Rust writes it.
type Named = (String, String);

/// Structs by their names, with their fields in order.
type Structs = BTreeMap<String, Vec<Named>>;

/// The structs of a source in Rattle or Rust that have the layout of C.
fn structs_of(source: &str) -> Structs {
    let mut found = Structs::new();
    let mut lines = source.lines().map(str::trim);
    while lines.any(|line| line == "#[repr(C)]") {
        let head = lines.by_ref().find(|line| !line.starts_with("#[")).unwrap_or_default();
        let Some(name) = head.strip_prefix("pub struct ").and_then(|rest| rest.strip_suffix(" {")) else { continue };
        let fields = lines.by_ref().take_while(|line| *line != "}").map(|line| {
            let (name, ty) = line.trim_start_matches("pub ").trim_end_matches(',').split_once(": ").expect("a field");
            (name.to_string(), ty.to_string())
        });
        found.insert(name.to_string(), fields.collect());
    }
    found
}

/// Those of all crates.
fn declared() -> Structs {
    let crates = read("crates.txt");
    let names = crates.lines().filter(|line| !line.starts_with('#')).filter_map(|line| line.split_once(':')?.0.split(' ').next());
    let sources = names.filter_map(|krate| fs::read_to_string(root().join(format!("crates/{krate}/src/lib.rt"))).ok());
    sources.flat_map(|source| structs_of(&source)).collect()
}

/// `tailsprig_menu_read` as `MenuRead`.
fn rust_name(c_name: &str) -> String {
    let words = c_name.trim_start_matches("tailsprig_").split('_');
    words.map(|word| word[..1].to_uppercase() + &word[1..]).collect()
}

/// `MenuRead` as `tailsprig_menu_read`, `NotABit` as `TAILSPRIG_NOT_A_BIT`.
fn c_name(rust_name: &str) -> String {
    let mut name = "tailsprig".to_string();
    for letter in rust_name.chars() {
        if letter.is_uppercase() {
            name.push('_');
        }
        name.extend(letter.to_lowercase());
    }
    name
}

/// A declaration of C, as `const uint8_t *octets`, as a name and its type.
fn declaration(text: &str) -> Named {
    let words: Vec<&str> = text.split_whitespace().collect();
    let (name, words) = words.split_last().expect("a name");
    let constant = words.first() == Some(&"const");
    let ty = match words.last().copied().expect("a type") {
        "uint8_t" => "u8".to_string(),
        "uint16_t" => "u16".to_string(),
        "uint32_t" => "u32".to_string(),
        "int32_t" => "i32".to_string(),
        "size_t" => "usize".to_string(),
        "bool" => "bool".to_string(),
        name => rust_name(name),
    };
    if let Some(name) = name.strip_prefix('*') {
        let pointer = if constant { "*const" } else { "*mut" };
        return (name.to_string(), format!("{pointer} {ty}"));
    }
    match name.trim_end_matches(']').split_once('[') {
        Some((name, count)) => (name.to_string(), format!("[{ty}; {count}]")),
        None => (name.to_string(), ty),
    }
}

/// What stands between braces behind each `WORD NAME` of the header.
fn blocks(word: &str) -> Vec<(String, String)> {
    let (header, word) = (header(), format!("\n{word} "));
    let blocks = header.split(&word).skip(1).filter_map(|rest| {
        let (name, rest) = rest.split_once(" {")?;
        let is_name = name.chars().all(|c| c.is_ascii_alphanumeric() || c == '_');
        is_name.then(|| (name.to_string(), rest.split_once('}').expect("a block ends").0.to_string()))
    });
    blocks.collect()
}

fn structs_of_the_header() -> Structs {
    let fields = |body: &str| {
        body.split(';').map(str::trim).filter(|field| !field.is_empty()).map(declaration).collect::<Vec<Named>>()
    };
    blocks("struct").iter().map(|(name, body)| (rust_name(name), fields(body))).collect()
}

#[test]
fn the_structs_are_those_of_the_sources() {
    let declared = declared();
    assert_eq!(declared.len(), 17, "{:?}", declared.keys());
    assert_eq!(structs_of_the_header(), declared, "include/tailsprig.h");
    assert_eq!(structs_of(&read("host/src/lib.rs")), declared, "host/src/lib.rs");
}

/// The bytes of a type and what its place is a multiple of, as C lays it out for x86-64.
fn layout(ty: &str, structs: &Structs) -> (usize, usize) {
    match ty {
        "u8" | "bool" => (1, 1),
        "u16" => (2, 2),
        "u32" | "i32" => (4, 4),
        "usize" => (8, 8),
        _ => match ty.strip_prefix('[').and_then(|rest| rest.strip_suffix(']')?.split_once("; ")) {
            Some((element, count)) => {
                let (bytes, multiple) = layout(element, structs);
                (bytes * count.parse::<usize>().expect("a count"), multiple)
            }
            None => {
                let fields = places(&structs[ty], structs);
                let multiple = structs[ty].iter().map(|(_, ty)| layout(ty, structs).1).max().expect("a field");
                let end = fields.last().map(|(_, at, bytes)| at + bytes).expect("a field");
                (end.next_multiple_of(multiple), multiple)
            }
        },
    }
}

/// Each field with its place and its bytes.
fn places(fields: &[Named], structs: &Structs) -> Vec<(String, usize, usize)> {
    let mut end: usize = 0;
    let mut placed = Vec::new();
    for (name, ty) in fields {
        let (bytes, multiple) = layout(ty, structs);
        let at = end.next_multiple_of(multiple);
        placed.push((name.clone(), at, bytes));
        end = at + bytes;
    }
    placed
}

/// The lines `WORD(..);` of `tests/header.c`, with what stands between the parentheses.
fn asserted(word: &str) -> Vec<String> {
    let test = read("tests/header.c");
    let lines = test.lines().filter_map(|line| line.strip_prefix(word)?.strip_prefix('(')?.strip_suffix(");"));
    lines.map(str::to_string).collect()
}

#[test]
fn the_c_test_has_the_size_and_the_places_of_every_struct() {
    let structs = declared();
    let (mut sizes, mut fields) = (Vec::new(), Vec::new());
    for (name, declared) in &structs {
        sizes.push(format!("{}, {}", c_name(name), layout(name, &structs).0));
        for (field, at, bytes) in places(declared, &structs) {
            fields.push(format!("{}, {field}, {at}, {bytes}", c_name(name)));
        }
    }
    let sorted = |mut lines: Vec<String>| {
        lines.sort();
        lines
    };
    assert_eq!(sorted(asserted("STRUCT")), sorted(sizes));
    assert_eq!(sorted(asserted("FIELD")), sorted(fields));
}

/// A function's parameters in order, and what it answers.
type Functions = BTreeMap<String, (Vec<Named>, String)>;

/// The functions of the library in a text of Rattle or Rust.
fn functions_of(source: &str) -> Functions {
    let parts = source.split("fn tailsprig_").skip(1).filter_map(|part| {
        let (name, rest) = part.split_once('(')?;
        let (parameters, rest) = rest.split_once(')')?;
        let answer = rest.strip_prefix(" -> ")?.split([';', '\n']).next()?;
        let parameters = parameters.split(',').map(str::trim).filter(|text| !text.is_empty()).map(|text| {
            let (name, ty) = text.split_once(": ").expect("a parameter");
            (name.to_string(), ty.to_string())
        });
        Some((name.to_string(), (parameters.collect(), answer.to_string())))
    });
    parts.collect()
}

/// Those of the header.
fn functions_of_the_header() -> Functions {
    let header = header();
    let functions = header.split(';').filter_map(|statement| {
        let (head, parameters) = statement.trim().trim_start_matches("}\n").strip_suffix(')')?.split_once('(')?;
        let head = head.rsplit('\n').next().unwrap_or(head);
        let (name, answer) = declaration(head);
        let parameters = parameters.split(',').map(str::trim).filter(|text| *text != "void").map(declaration);
        Some((name.trim_start_matches("tailsprig_").to_string(), (parameters.collect(), answer)))
    });
    functions.collect()
}

/// A parameter of the library as C passes it: a slice as a pointer and a length.
fn as_c_passes((name, ty): &Named) -> Vec<Named> {
    let length = ("length".to_string(), "usize".to_string());
    match ty.as_str() {
        "&[u8]" => vec![(name.clone(), "*const u8".to_string()), length],
        "&mut [u8]" => vec![(name.clone(), "*mut u8".to_string()), length],
        _ => vec![(name.clone(), ty.replace("&mut ", "*mut "))],
    }
}

#[test]
fn the_functions_are_those_of_the_sources() {
    let header = functions_of_the_header();
    let declared = functions_of(&source("tailsprig"));
    assert_eq!(declared.len(), 23, "{:?}", declared.keys());
    assert_eq!(header, functions_of(read("host/src/lib.rs").split("extern \"C\"").nth(1).expect("declarations")));
    assert!(header.keys().eq(declared.keys()), "{:?}", header.keys());
    for (name, (parameters, answer)) in &declared {
        let passed: Vec<Named> = parameters.iter().flat_map(as_c_passes).collect();
        // A length may have any name that says it is one.
        let lengths = |(name, ty): &Named| match ty.as_str() {
            "usize" if name.ends_with("len") => ("length".to_string(), ty.clone()),
            _ => (name.clone(), ty.clone()),
        };
        assert_eq!(header[name].0.iter().map(lengths).collect::<Vec<_>>(), passed, "{name}");
        assert_eq!(&header[name].1, answer, "{name}");
    }
}

/// Numbers by their names.
type Numbers = BTreeMap<String, i64>;

/// A number, or 1 shifted by one that has a name.
fn value(text: &str, numbers: &Numbers) -> i64 {
    match text.strip_prefix("1 << ") {
        Some(name) => 1 << numbers[name],
        None => text.parse().unwrap_or_else(|error| panic!("{text}: {error}")),
    }
}

/// The names and numbers of an enum of the header, in their order.
fn numbers_of(name: &str, known: &Numbers) -> Vec<(String, i64)> {
    let enums = blocks("enum");
    let (_, body) = enums.iter().find(|(found, _)| found == name).unwrap_or_else(|| panic!("no enum {name}"));
    let entries = body.split(',').filter_map(|entry| entry.trim().split_once(" = "));
    entries.map(|(name, text)| (name.to_string(), value(text, known))).collect()
}

/// Every name of the header that stands for a number.
fn numbers_of_the_header() -> Numbers {
    let mut numbers = Numbers::new();
    for (name, _) in blocks("enum") {
        let found = numbers_of(&name, &numbers);
        numbers.extend(found);
    }
    for line in header().lines().filter_map(|line| line.strip_prefix("#define ")) {
        if let Some((name, text)) = line.trim_end().split_once(' ').filter(|(_, text)| !text.starts_with('"')) {
            numbers.insert(name.to_string(), value(text, &numbers));
        }
    }
    numbers
}

#[test]
fn the_c_test_has_every_number_of_the_header() {
    let numbers = numbers_of_the_header();
    assert!(numbers.len() > 100, "{} numbers were found", numbers.len());
    let asserted: Numbers = asserted("NUMBER")
        .iter()
        .map(|line| {
            let (name, text) = line.split_once(", ").expect("a name and a number");
            let number = match text.strip_prefix("0x") {
                Some(digits) => i64::from_str_radix(digits, 16).expect("a number"),
                None => text.parse().expect("a number"),
            };
            (name.to_string(), number)
        })
        .collect();
    assert_eq!(asserted, numbers);
}

/// A constant of a crate.
fn constant(krate: &str, name: &str) -> i64 {
    let source = source(krate);
    let text = source.lines().find_map(|line| line.split_once(&format!("const {name}: "))?.1.split_once(" = "));
    let (_, number) = text.unwrap_or_else(|| panic!("no constant {name} in {krate}"));
    number.trim_end_matches(';').parse().expect("a number")
}

#[test]
fn the_numbers_are_those_of_the_sources() {
    let numbers = numbers_of_the_header();
    let number = |name: &str| numbers[&format!("TAILSPRIG_{name}")];
    let of_steps = [("state", "STATE_"), ("event", "EVENT_"), ("ended", "ENDED_"), ("end", "")];
    for (kind, prefix) in of_steps {
        for (name, number) in numbers_of(&format!("tailsprig_{kind}"), &numbers) {
            let name = name.strip_prefix(&format!("TAILSPRIG_{prefix}")).expect("a name of its enum");
            assert_eq!(number, constant("steps", name), "{name}");
        }
    }
    for (krate, name, in_header) in [
        ("listening", "CI", "CI"),
        ("listening", "MENU", "MENU"),
        ("octets", "CALL_FUNCTION", "TAG_CALL_FUNCTION"),
        ("items", "MODULATION", "TAG_MODULATION"),
        ("menus", "PCM", "TAG_PCM"),
        ("menus", "PROTOCOL", "TAG_PROTOCOL"),
        ("menus", "ACCESS", "TAG_ACCESS"),
        ("fields", "FIELD", "TAG_FIELD"),
        ("octets", "MOST_OCTETS", "MOST_OCTETS"),
        ("sequences", "FRAME", "OCTET_BITS"),
        ("sequences", "CJ_BITS", "CJ_BITS"),
        ("codes", "NOWHERE", "NOWHERE"),
        ("steps", "LEAST_TE", "TE_TEXTPHONE"),
        ("cadence", "SILENCE", "SILENCE"),
    ] {
        assert_eq!(number(in_header), constant(krate, name), "{in_header}");
    }
    assert_eq!(number("MOST_BITS"), constant("sequences", "PREAMBLE") + number("OCTET_BITS") * number("MOST_OCTETS"));
    assert_eq!(number("MENU_MOST"), number("MOST_OCTETS"));
    // Five bits an octet, but for the call function octet and the field's own category octet.
    assert_eq!(number("FIELD_MOST"), (number("MOST_OCTETS") - 2) * 5 / 8);
}

/// A number as the manual writes it.
fn with_comma(number: i64) -> String {
    match number / 1000 {
        0 => number.to_string(),
        thousands => format!("{thousands},{:03}", number % 1000),
    }
}

#[test]
fn te_in_the_manual_is_that_of_the_sources() {
    let manual = read("include/tailsprig.h");
    let [least, most, default] = ["LEAST_TE", "MOST_TE", "DEFAULT_TE"].map(|name| with_comma(constant("steps", name)));
    for said in [
        format!("te is not {least} to {most}, or function"),
        format!("how long the caller is quiet: {least} to {most}; 0 for the answerer */"),
        format!("without a value for Te, which then is {default}. Not for textphone callers. */"),
    ] {
        assert!(manual.contains(&said), "{said}");
    }
}

#[test]
fn the_cadence_in_the_manual_is_that_of_the_sources() {
    let manual = read("include/tailsprig.h");
    let [function, last_function, on, most_on, off, most_off, sequence, third] =
        ["FIRST_FUNCTION", "LAST_FUNCTION", "LEAST_ON", "MOST_ON", "LEAST_OFF", "MOST_OFF", "SEQUENCE", "THREE_SEQUENCES"]
            .map(|name| constant("cadence", name));
    for said in [
        format!("or function is not {function} to {last_function}\n"),
        format!("on is not {on} to {most_on}, or off is not {off} to {most_off}\n"),
        format!("an on period of {on} to {most_on} CI of {sequence} bits each, an off period of {off} to {most_off} bit times"),
        format!("behind an on period: {off} to {most_off} */"),
        format!("how many CI an on period has: {on} to {most_on} */"),
        format!("less than {sequence} * on + off */"),
        format!("counted up to {third}; equals place until then. 0 to {third} */"),
        format!("at most {third} bits\n"),
        format!("draws {third} bits on entering CALLING"),
    ] {
        assert!(manual.contains(&said), "{said}");
    }
}

/// The rows of the steps' table for a state and a tick: the milliseconds, the condition and the next state.
fn ticks_of(state: &str) -> Vec<(i64, String, String)> {
    let source = source("steps");
    let (_, table) = source.split_once("const ROWS").expect("the table");
    let field = |row: &str, name: &str, end: char| {
        let rest = row.split_once(&format!(" {name}: ")).unwrap_or_else(|| panic!("no {name}: {row}")).1;
        rest.split(end).next().unwrap_or_default().trim_start_matches("To(").to_string()
    };
    let rows = table.split("];").next().unwrap_or_default().split("Row {").skip(1);
    rows.filter(|row| field(row, "state", ',') == state && field(row, "event", ',') == "TICK")
        .map(|row| (field(row, "least", ',').parse().expect("a number"), field(row, "condition", ','), field(row, "to", ',')))
        .collect()
}

#[test]
fn the_limits_in_the_manual_are_those_of_the_table() {
    let manual = read("include/tailsprig.h");
    let head = manual.lines().find(|line| line.starts_with(" * State ")).expect("the table of states");
    let limits = head.find("at the latest").expect("its last column");
    for (name, number) in numbers_of("tailsprig_state", &Numbers::new()) {
        let state = name.strip_prefix("TAILSPRIG_STATE_").expect("a state");
        if state == "OVER" {
            continue;
        }
        let row = manual.lines().find(|line| line.starts_with(&format!(" * {number} {state} ")));
        let said = &row.unwrap_or_else(|| panic!("no row for {state}"))[limits..];
        let expected = match ticks_of(state).as_slice() {
            // Calling: a tick leads on behind the last bit of CI, whenever that was drawn.
            rows if rows.iter().all(|(least, condition, _)| *least == 0 && condition.starts_with("Condition::Behind")) => {
                "no limit".to_string()
            }
            [(0, condition, next)] if condition == "Condition::TeElapsed" => format!("Te: {next}"),
            [(least, condition, next)] if condition == "Condition::Always" => format!("{} ms: {next}", with_comma(*least)),
            rows => panic!("{state}: {rows:?}"),
        };
        assert!(said.starts_with(&expected), "{state}: {said}, and not {expected}");
    }
}

#[test]
fn the_refusals_are_those_of_the_sources() {
    let source = source("refusals");
    let declared: Vec<(String, i64)> = source
        .lines()
        .filter_map(|line| line.trim().strip_prefix("Refusal::")?.strip_suffix(',')?.split_once(" => "))
        .map(|(name, number)| (c_name(name).to_uppercase(), number.parse().expect("a number")))
        .collect();
    assert_eq!(declared.len(), 16);
    assert_eq!(numbers_of("tailsprig_refusal", &Numbers::new()), declared);
}

#[test]
fn the_version_of_this_package_is_that_of_the_header() {
    let version = format!("#define TAILSPRIG_VERSION \"{}\"", env!("CARGO_PKG_VERSION"));
    assert!(header().lines().any(|line| line == version), "{version}");
}
