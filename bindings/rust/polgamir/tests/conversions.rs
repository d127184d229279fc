//! The converter of old jobs. The numbers are those of field cases F and G.

mod common;

use common::{case_f, CASE_C_WORDS};
use polgamir::{convert, convert_into, plan_words, Refusal};

#[test]
fn a_flying_target_moves_at_the_asked_tick() {
    let converted = convert(&case_f(39)).expect("a conversion");
    let (before, after) = converted.split_at(10);
    assert_eq!(before, &case_f(39)[..10]);
    assert_eq!(after, [0xB0000000, 0xC0000027, 0xF0000000]);
    let mut table = [0; 120];
    assert_eq!(plan_words(&converted, &mut table).map(|accepted| accepted.arrival()), Ok(39));
    assert_eq!(table[..6], [0, 2560, -256, 2432, 2304, -256]);
    assert_eq!(table[117..], [2560, 2560, 0]);
    assert_eq!(plan_words(&case_f(39), &mut table), Err(Refusal::FlyingTarget { axis: 0 }));
}

#[test]
fn lent_words_are_written_from_their_start() {
    let mut lent = [7; 15];
    assert_eq!(convert_into(&case_f(2), &mut lent), Ok(13), "reach is not looked at");
    assert_eq!(lent[10..], [0xB0000000, 0xC0000002, 0xF0000000, 7, 7]);
    let mut lent = [7; 12];
    let refusal = convert_into(&case_f(2), &mut lent).expect_err("too few words");
    assert_eq!(refusal, Refusal::WordsTooFew { needed: 13 });
    assert_eq!(refusal.printed_line(), "refused 10 place 13 axes 0 arrival 0");
    assert_eq!(lent, [7; 12]);
}

#[test]
fn the_least_arrival_has_no_conversion() {
    assert_eq!(convert(&case_f(0)), Err(Refusal::FlyingTarget { axis: 0 }));
    assert_eq!(convert(&CASE_C_WORDS).as_deref(), Ok(&CASE_C_WORDS[..]), "targets at rest are copied");
    assert_eq!(convert(&[]), Err(Refusal::Mask));
    assert_eq!(convert(&CASE_C_WORDS[..4]), Err(Refusal::Words { index: 4 }));
    assert_eq!(convert(&case_f(4097)), Err(Refusal::AskedArrival));
}
