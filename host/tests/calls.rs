//! What the vectors do not reach: numbers that only C can pass, and CJ.
use tailsprig::{c, write, write_cj, Kind, Refusal};

#[test]
fn a_kind_that_is_none_is_refused_before_all_else_and_writes_nothing() {
    let too_many = [0; 65];
    for kind in (0..=255).filter(|kind| ![1, 2].contains(kind)) {
        let mut out = [9; 1];
        // SAFETY: both arrays are lent with their lengths.
        let answer = unsafe { c::tailsprig_write(kind, too_many.as_ptr(), too_many.len(), 1, out.as_mut_ptr(), out.len()) };
        assert_eq!((answer, out), (-10, [9; 1]), "kind {kind}");
    }
}

#[test]
fn cj_is_three_framed_zeros_or_refusal_6() {
    let mut framed = [0; 30];
    for stop in [9, 19, 29] {
        framed[stop] = 1;
    }
    for room in 0..40 {
        let mut out = vec![9; room];
        if room < 30 {
            assert_eq!(write_cj(&mut out), Err(Refusal(6)));
            assert_eq!(out, vec![9; room]);
        } else {
            assert_eq!(write_cj(&mut out), Ok(30));
            assert_eq!(out[..30], framed);
            assert_eq!(out[30..], vec![9; room - 30]);
        }
    }
}

#[test]
fn the_largest_call_fits_its_answer() {
    let octets: Vec<u8> = (0..64).map(|at| if at == 0 { 0xc1 } else { 0x10 }).collect();
    let mut out = vec![9; 660 * 65_535 + 1];
    assert_eq!(write(Kind::Menu, &octets, 65_535, &mut out), Ok(660 * 65_535));
    assert_eq!(out.last(), Some(&9));
    assert!(out[..660 * 65_535].chunks(660).all(|copy| copy == &out[..660]));
}
