//! Request 06, over every short list of the octets that make a difference: "The answer equals that of the full menu", what stands behind
//! the deciding octet changes nothing, and the model and plain Rust answer what the library does.
use tailsprig::{asks, c, model::Model, numbers, plain, read, Refusal};

/// Category octets, of modulation groups without and with items 1 and 2 and of others; extension octets without an item and with all; and bad
/// ones.
const OCTETS: [u8; 9] = [0x05, 0xc5, 0xc1, 0x00, 0x0a, 0x10, 0xd7, 0x18, 0x30];

/// Every list of so many of them behind a call function octet.
fn lists(octets: u32) -> impl Iterator<Item = Vec<u8>> {
    let digits = move |number: usize| (0..octets).map(move |at| OCTETS[number / OCTETS.len().pow(at) % OCTETS.len()]);
    (0..OCTETS.len().pow(octets)).map(move |number| std::iter::once(0xc1).chain(digits(number)).collect())
}

/// Every list of up to four of them, each with every item that there is.
fn questions() -> impl Iterator<Item = (Vec<u8>, u8)> {
    (0..=4).flat_map(lists).flat_map(|octets| (1..=12).map(move |item| (octets.clone(), item)))
}

#[test]
fn the_answer_is_that_of_the_full_menu() {
    let mut offered = [0; 2];
    for (octets, item) in questions() {
        let Ok(menu) = read(&octets) else { continue };
        let in_menu = menu.items >> item & 1 == 1;
        assert_eq!(asks(&octets, item).map(|asked| asked.offered), Ok(in_menu), "{octets:02X?} {item}");
        offered[usize::from(in_menu)] += 1;
    }
    assert!(offered.iter().all(|count| *count > 1000), "{offered:?} without and with the item");
}

/// Behind the octet that decides a list may go on with anything, or end. One that was looked at to its end is left out: nothing decides
/// there, or its last octet does.
#[test]
fn octets_past_the_deciding_one_are_not_seen() {
    let mut unread = 0;
    for (octets, item) in questions() {
        let Ok(asked) = asks(&octets, item) else { continue };
        if asked.looked == octets.len() {
            continue;
        }
        for behind in [&[][..], &[0x18], &[0xd7; 3], &[0xc5, 0xd7, 0xd7]] {
            let other = [&octets[..asked.looked], behind].concat();
            assert_eq!(asks(&other, item), Ok(asked), "{octets:02X?} {item}, and {other:02X?}");
        }
        unread += usize::from(read(&octets) == Err(Refusal(3)));
    }
    assert!(unread > 1000, "{unread} menus that are refused where they are read");
}

#[test]
fn the_model_and_plain_rust_answer_what_the_library_does() {
    // What is refused before the walk: no octets, a first octet that is no call function, and the longest list with one octet more.
    let long = |length: usize| [vec![0xc1, 0x05], vec![0xd7; length - 2]].concat();
    let refused = [vec![], vec![0x11], vec![0xc5], vec![0x31, 0x18], long(64), long(65), vec![0; 65]];
    let with_any_item = refused.into_iter().chain((0..=1).flat_map(lists));
    let with_any_item = with_any_item.flat_map(|octets| (0..=255).map(move |item| (octets.clone(), item)));
    for (octets, item) in with_any_item.chain(questions()) {
        // SAFETY: the slice is lent for the call alone, with its length.
        let ours = unsafe { c::tailsprig_asks(octets.as_ptr(), octets.len(), item) };
        assert_eq!(numbers::item_asked(Model::default().asks(&octets, item)), ours, "{octets:02X?} {item}");
        assert_eq!(plain::asks(&octets, item), ours, "{octets:02X?} {item}");
    }
}
