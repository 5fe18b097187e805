//! The image and what makes a record sound.

mod common;

use common::{Host, MSID, N};
use second::requests;
use second::uid;
use second::{Card, IMAGE_LENGTH};

fn with(image: &[u8], changes: &[(usize, u8)]) -> Card {
    let mut image = image.to_vec();
    changes.iter().for_each(|(at, byte)| image[*at] = *byte);
    let card = Card::from_image(&image).unwrap();
    assert_eq!(card.image(), image);
    card
}

fn is_flag(at: usize) -> bool {
    let in_tables = |at: usize| match at {
        0 => true,
        1..=105 => (at - 1) % 21 >= 16,
        _ => true,
    };
    match at {
        43..=165 => in_tables(at - 43),
        179 | 180 | 189..=201 | 206 => true,
        207..=329 => in_tables(at - 207),
        _ => false,
    }
}

#[test]
fn factory_bounds() {
    for n in [0, 262_143, (1 << 40) + 1, u64::MAX] {
        assert!(Card::factory(n, &MSID).is_none());
    }
    for n in [262_144, 1 << 40] {
        assert!(Card::factory(n, &MSID).unwrap().sound());
    }
    assert!(Card::factory(N, &MSID[..31]).is_none());
    assert!(Card::factory(N, &[0; 33]).is_none());
}

#[test]
fn factory_image() {
    let mut expected = vec![1, 4, 8];
    expected.extend(N.to_be_bytes());
    expected.extend(MSID);
    expected.extend([0; 109]);
    expected.extend([1, 1, 0, 0, 0, 0, 0, 0, 0, 0, 0, 0, 0, 0]);
    expected.extend([0; 13 + 23]);
    expected.extend([0, 0, 0, 1]);
    expected.extend([0; 124]);
    expected.push(32);
    expected.extend(MSID);
    expected.extend([0; 12 * 33 + 429]);
    assert_eq!(expected.len(), IMAGE_LENGTH);
    assert_eq!(Card::factory(N, &MSID).unwrap().image(), expected);
}

#[test]
fn refused_images() {
    let image = Card::factory(N, &MSID).unwrap().image();
    assert!(Card::from_image(&image[..IMAGE_LENGTH - 1]).is_none());
    assert!(Card::from_image(&[&image[..], &[0]].concat()).is_none());
    for at in 0..IMAGE_LENGTH {
        let mut other = image.clone();
        other[at] = 2;
        let refused = at < 3 || is_flag(at);
        assert_eq!(Card::from_image(&other).is_none(), refused, "{at}");
    }
}

#[test]
fn sound_without_a_session() {
    let image = Card::factory(N, &MSID).unwrap().image();
    let sound = |changes: &[(usize, u8)]| with(&image, changes).sound();
    assert!(sound(&[]));
    // N out of bounds; the global row's start and length; SID's Enabled; Tries; the next TSN.
    assert!(!sound(&[(3, 1)]));
    assert!(!sound(&[(51, 1)]));
    assert!(!sound(&[(59, 1)]));
    assert!(!sound(&[(152, 0)]));
    assert!(sound(&[(153, 0)]));
    assert!(sound(&[(166, 5), (178, 5)]));
    assert!(!sound(&[(166, 6)]));
    assert!(!sound(&[(205, 0)]));
    assert!(sound(&[(205, 0), (202, 0xFF)]));
    // No session: its cells are zero. No transaction: what was before is zero.
    for at in 180..202 {
        assert!(!sound(&[(at, 1)]), "{at}");
    }
    for at in (206..330).chain(759..IMAGE_LENGTH) {
        assert!(!sound(&[(at, 1)]), "{at}");
    }
    // A PIN over 32 bytes, a byte past a PIN's length.
    assert!(!sound(&[(330, 33)]));
    assert!(!sound(&[(330, 255)]));
    assert!(!sound(&[(330, 31)]));
    assert!(sound(&[(363, 1)]));
    assert!(sound(&[(363, 1), (364, 9)]));
    assert!(!sound(&[(363, 1), (365, 9)]));
    // Ranges 1 and 2 (rows at 65 and 86): overlap, touch, end past N, an empty one with a start past N.
    let place =
        |first: (u8, u8), second: (u8, u8)| sound(&[(72, first.0), (80, first.1), (93, second.0), (101, second.1)]);
    assert!(place((10, 10), (20, 10)));
    assert!(place((20, 10), (10, 10)));
    assert!(!place((10, 11), (20, 10)));
    assert!(!place((20, 10), (10, 11)));
    assert!(!place((20, 10), (15, 100)));
    assert!(place((20, 10), (25, 0)));
    assert!(!sound(&[(65, 0xFF)]));
    assert!(!sound(&[(73, 0xFF)]));
    assert!(!sound(&(65..81).map(|at| (at, 0xFF)).collect::<Vec<_>>()));
}

#[test]
fn sound_in_a_session() {
    let mut host = Host::admin1();
    let image = host.card.image();
    let sound = |changes: &[(usize, u8)]| with(&image, changes).sound();
    assert!(sound(&[]));
    assert!(!sound(&[(43, 0)]));
    assert!(!sound(&[(184, 0)]));
    assert!(sound(&[(188, 0)]));
    assert!(!sound(&[(189, 1)]));
    for at in 190..202 {
        assert!(sound(&[(at, 1)]));
    }
    // To the Admin SP only SID is proved.
    assert!(!sound(&[(180, 0)]));
    assert!(sound(&[(180, 0), (190, 0)]));
    assert!(sound(&[(180, 0), (190, 0), (189, 1), (43, 0)]));
    assert!(!sound(&[(180, 0), (190, 0), (191, 1)]));

    host.send(&requests::begin());
    assert_eq!(host.set(&uid::range(1), &[(4, 1)]), 0);
    let image = host.card.image();
    let sound = |changes: &[(usize, u8)]| with(&image, changes).sound();
    assert!(sound(&[]));
    // A rollback copy that could not be put back: inactive, SID disabled, a range, a PIN.
    assert!(!sound(&[(207, 0)]));
    assert!(!sound(&[(316, 0)]));
    assert!(!sound(&[(229, 0xFF)]));
    assert!(!sound(&[(759, 33)]));
    assert!(!sound(&[(791, 1), (759, 31)]));
    // The cells of now are judged all the same.
    assert!(!sound(&[(43, 0)]));
    // A transaction without a session.
    let closed: Vec<_> = (179..202).map(|at| (at, 0)).collect();
    assert!(!sound(&closed));
}
