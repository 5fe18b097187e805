//! What is timed: payloads of one kind, short ones and the longest.

use chance::Chance;
use second::requests::{self, built, named_integer, named_integers};
use second::uid;

use crate::tokens::{self, Forms, INSIDE};

/// The longest request, and where its payload starts.
const LONGEST: usize = 2048;
const ENVELOPE: usize = 56;
/// Bytes of a call around the values in its list, with UIDs in the shortest form.
const FRAME: usize = 27;
/// How many payloads there are where chance makes them: no one of them is then known by heart.
const MADE: usize = 16;
/// Takes the place of a first byte, and is broken there.
const NO_TOKEN: u8 = 0x40;
const HSN: u32 = 105;

pub struct Mix {
    pub group: &'static str,
    pub name: &'static str,
    /// Buffers that hold a payload each, from `at` to their end.
    pub buffers: Vec<Vec<u8>>,
    pub at: usize,
    pub whole: bool,
}

impl Mix {
    /// The bytes of a payload; where they have not as many, in the mean.
    pub fn bytes(&self) -> usize {
        self.buffers.iter().map(|buffer| buffer.len() - self.at).sum::<usize>() / self.buffers.len()
    }
}

/// All mixes, in the order of the table.
pub fn all() -> Vec<Mix> {
    let mut mixes = short();
    for (name, payloads, whole) in long(LONGEST) {
        mixes.push(Mix { group: "payloads of 2,048 bytes", name, buffers: payloads, at: 0, whole });
    }
    for (name, payloads, whole) in long(LONGEST - ENVELOPE) {
        let group = "payloads of 1,992 bytes, from byte 56 on of requests of 2,048";
        let buffers = payloads.iter().map(|payload| requests::envelope(1, HSN, payload)).collect();
        mixes.push(Mix { group, name, buffers, at: ENVELOPE, whole });
    }
    mixes
}

fn short() -> Vec<Mix> {
    let columns = built(|tokens| {
        named_integer(tokens, 3, 1_000);
        named_integer(tokens, 4, 100);
        (5..=8).for_each(|column| named_integer(tokens, column, 1));
        named_integers(tokens, 9, &[0, 3]);
    });
    let payloads = [
        ("StartSession", requests::start_session(u64::from(HSN), &uid::LOCKING_SP, true, None, None)),
        ("Get", requests::get(&uid::range(1), Some(3), Some(9))),
        ("Set of seven columns", requests::set(&uid::range(1), &columns)),
        ("end of session", requests::end_session()),
    ];
    let mix = |name, buffers| Mix { group: "short payloads", name, buffers, at: 0, whole: true };
    let all = payloads.iter().map(|(_, payload)| payload.clone()).collect();
    let mut mixes: Vec<Mix> = payloads.into_iter().map(|(name, payload)| mix(name, vec![payload])).collect();
    mixes.push(mix("these four by turns", all));
    mixes
}

/// Payloads of `size` bytes, each kind with whether it is whole.
fn long(size: usize) -> Vec<(&'static str, Vec<Vec<u8>>, bool)> {
    let room = size - FRAME;
    let alike = |piece: &[u8]| vec![call(&filled(vec![], piece, room))];
    let string = built(|tokens| requests::bytes(tokens, &vec![9; room - 2]));
    let nest = [vec![0xF0; INSIDE], vec![1, 2], vec![0xF1; INSIDE]].concat();
    let made: Vec<Vec<u8>> = {
        let mut chance = Chance::new(size as u64);
        (0..MADE).map(|_| call(&filled(by_chance(&mut chance, room), &[1], room))).collect()
    };
    let with_no_token = |at: usize| made.iter().map(|payload| replaced(payload, at)).collect();
    let broken_in_the_middle = {
        let mut chance = Chance::new(size as u64);
        let half = |chance: &mut Chance| filled(by_chance(chance, room / 2), &[1], room / 2);
        (0..MADE).map(|_| call(&filled([half(&mut chance), vec![NO_TOKEN]].concat(), &[1], room))).collect()
    };
    vec![
        ("tiny atoms", alike(&[5]), true),
        ("8-byte integers", alike(&[0x88, 1, 2, 3, 4, 5, 6, 7, 8]), true),
        ("8-byte strings", alike(&[0xA8, 1, 2, 3, 4, 5, 6, 7, 8]), true),
        ("one long string", alike(&string), true),
        ("named values", alike(&[0xF2, 3, 7, 0xF3]), true),
        ("lists to depth 16", alike(&nest), true),
        ("many FF", alike(&[0xFF, 0xFF, 5, 0xFF, 0xF0, 0xFF, 0xF1, 0xFF, 0xFF]), true),
        ("random mixed", made.clone(), true),
        ("broken at the first byte", with_no_token(0), false),
        ("broken in the middle", broken_in_the_middle, false),
        ("broken at the last byte", with_no_token(size - 1), false),
    ]
}

fn call(values: &[u8]) -> Vec<u8> {
    requests::call(&uid::range(1), &uid::SET, values)
}

/// Values made by chance, up to `room` bytes.
fn by_chance(chance: &mut Chance, room: usize) -> Vec<u8> {
    let mut values = vec![];
    loop {
        let mut value = vec![];
        tokens::value(chance, Forms::Shortest, INSIDE, &mut value);
        let longer = [&values[..], &value.concat()].concat();
        if longer.len() > room {
            return values;
        }
        values = longer;
    }
}

/// `values` with whole pieces after them, and tiny atoms up to `room` bytes.
fn filled(mut values: Vec<u8>, piece: &[u8], room: usize) -> Vec<u8> {
    while values.len() + piece.len() <= room {
        values.extend(piece);
    }
    values.resize(room, 1);
    values
}

fn replaced(payload: &[u8], at: usize) -> Vec<u8> {
    let mut payload = payload.to_vec();
    payload[at] = NO_TOKEN;
    payload
}

#[cfg(test)]
mod tests {
    use super::*;

    #[test]
    fn lengths_are_what_the_groups_say() {
        for mix in all() {
            let wanted = match mix.group {
                "short payloads" => continue,
                "payloads of 2,048 bytes" => (LONGEST, LONGEST),
                _ => (LONGEST, LONGEST - ENVELOPE),
            };
            for buffer in &mix.buffers {
                assert_eq!((buffer.len(), buffer.len() - mix.at), wanted, "{}", mix.name);
            }
        }
    }

    #[test]
    fn each_is_whole_or_broken_as_its_name_says() {
        for mix in all() {
            assert_eq!(crate::as_meant(&mix), Ok(()));
        }
    }

    #[test]
    fn a_start_session_without_options_has_39_bytes() {
        assert_eq!(all()[0].bytes(), 39);
    }
}
