//! Both readers on the borders of the grammar, and on places other than the first.

use yardstick::borders;
use yardstick::{lean, obvious, Payload};

type Parse = fn(&[u8], usize) -> Option<Payload>;

const READERS: [(&str, Parse); 2] = [("obvious", obvious::parse), ("lean", lean::parse)];

#[test]
fn borders_are_read_as_they_are() {
    for border in borders::all() {
        for (name, parse) in READERS {
            assert_eq!(parse(&border.bytes, 0), border.payload, "{name}: {} {:02x?}", border.name, border.bytes);
        }
    }
}

#[test]
fn every_way_to_be_whole_or_broken_is_there() {
    let borders = borders::all();
    let whole = borders.iter().filter(|border| border.payload.is_some()).count();
    assert!(whole > 100 && borders.len() - whole > 400, "{whole} of {}", borders.len());
}

#[test]
fn places_count_from_the_start_of_the_bytes() {
    for border in borders::all() {
        let moved = border.payload.map(|payload| match payload {
            Payload::Call { object, method, parameters } => {
                Payload::Call { object, method, parameters: parameters + 3 }
            }
            other => other,
        });
        let bytes = [&[0xF8, 0xFF, 0xF0], &border.bytes[..]].concat();
        for (name, parse) in READERS {
            assert_eq!(parse(&bytes, 3), moved, "{name}: {}", border.name);
        }
    }
}

#[test]
fn no_place_is_too_far() {
    for (name, parse) in READERS {
        for at in [1, 2, 1000, usize::MAX] {
            assert_eq!(parse(&[0xFA], at), None, "{name} at {at}");
        }
    }
}
