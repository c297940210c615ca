//! Request 02: "What is written reads back, and what reads well is written to the same extension octets." Through a CM that is so as far
//! as one of ours has room. Asked of the library, for all CMs of the vectors.
use std::{fs, path::PathBuf};
use tailsprig::{c, cm, fields, find, part, text, Refusal};

/// The rows of a vector file.
fn rows(name: &str) -> Vec<Vec<String>> {
    let path = PathBuf::from(env!("CARGO_MANIFEST_DIR")).join("../tests/vectors").join(name);
    let vectors = fs::read_to_string(path).expect("the vectors can be read");
    vectors.lines().skip(1).map(|row| row.split('\t').map(str::to_string).collect()).collect()
}

fn octets(text: &str) -> Vec<u8> {
    text::octets(text).expect("octets")
}

/// What the field of a CM holds.
fn read(heard: &[u8]) -> Result<Vec<u8>, Refusal> {
    let mut out = [0; 38];
    fields(heard, &mut out).map(|count| out[..count].to_vec())
}

#[test]
fn what_is_written_reads_back() {
    let mut compared = 0;
    for row in rows("cm.tsv").iter().filter(|row| !row[4].starts_with('R')) {
        assert_eq!(read(&octets(&row[4])), Ok(octets(&row[2])), "{row:?}");
        compared += usize::from(row[2] != "-");
    }
    assert!(compared > 100, "{compared} CMs with a field");
}

#[test]
fn what_reads_well_is_written_to_the_same_extension_octets() {
    const TAG: u8 = 15;
    let mut own = c::Record { home: 6, ..c::Record::default() };
    own.functions[5].available = 1;
    let mut compared = 0;
    for row in rows("fields.tsv") {
        let heard = octets(&row[0]);
        let Ok(carried) = read(&heard) else { continue };
        if carried.is_empty() {
            continue;
        }
        let place = find(&heard, TAG).expect("a CM that was read").expect("a group that was read");
        let mut made = [0; 64];
        match cm(&own, 6, &carried, &mut made) {
            Ok(count) => assert_eq!(made[4..count], *part(&heard, place), "{row:?}"),
            Err(refusal) => assert!(refusal == Refusal(4) && carried.len() > 36, "{refusal:?}: {row:?}"),
        }
        compared += 1;
    }
    assert!(compared > 100, "{compared} fields");
}
