//! What no `Card` can be made to ask: images of every length around the right one, and an unsound record.

use flamepocket::{ffi, Card, Refusal};

const MSID: [u8; 32] = *b"0123456789abcdefghijklmnopqrstuv";

#[test]
fn an_image_has_one_length() {
    let length = ffi::record_length();
    assert_eq!(length, 1188);
    for room in [0, 1, length - 1, length + 1, 4096] {
        let mut image = vec![0xEE; room];
        assert_eq!(ffi::factory(&mut image, 1_000_000, &MSID), 1);
        assert_eq!(ffi::sound(&image), 1);
        assert_eq!(ffi::command(&mut image, &[], &mut [0; 2048]), 1);
        assert_eq!(ffi::power_cycle(&mut image), 1);
        assert_eq!(ffi::tper_reset(&mut image), 1);
        assert_eq!(ffi::media(&image, false, 0, 0), 1);
        assert_eq!(image, vec![0xEE; room]);
    }
}

#[test]
fn factory_has_bounds() {
    for (n, msid, made) in [
        (262_143, &MSID[..], false),
        (262_144, &MSID[..], true),
        (1 << 40, &MSID[..], true),
        ((1 << 40) + 1, &MSID[..], false),
        (u64::MAX, &MSID[..], false),
        (1_000_000, &MSID[1..], false),
        (1_000_000, &[0; 33], false),
        (1_000_000, &[], false),
    ] {
        assert_eq!(Card::factory(n, msid).is_ok(), made, "{n} sectors, an MSID of {} bytes", msid.len());
    }
}

#[test]
fn a_refused_factory_writes_nothing() {
    let mut image = vec![0xEE; ffi::record_length()];
    assert_eq!(ffi::factory(&mut image, 0, &MSID), 1);
    assert_eq!(image, vec![0xEE; ffi::record_length()]);
}

#[test]
fn numbers_of_the_refusals() {
    let numbers: Vec<u8> = Refusal::ALL.iter().map(|refusal| refusal.number()).collect();
    assert_eq!(numbers, [1, 2, 3, 4, 5, 6, 7]);
}

#[test]
fn a_printed_card_shows_no_pin() {
    let printed = format!("{:?}", Card::factory(1_000_000, &MSID));
    assert_eq!(printed, "Ok(Card(1188 bytes))");
}
