//! Histories made by chance: nothing panics, every number but 0 changes nothing, the record stays sound.
//! (`Host::send_raw` checks the last two, and the answer's sums, at every step.)

mod common;

use common::{word, Host, MSID};
use second::requests::{self, built, named_bytes, named_integer, named_integers};
use second::uid::{self, Uid};
use second::Card;

/// A small generator (xorshift), so that a run can be had again.
struct Chance(u64);

impl Chance {
    fn below(&mut self, bound: u64) -> u64 {
        self.0 ^= self.0 << 13;
        self.0 ^= self.0 >> 7;
        self.0 ^= self.0 << 17;
        self.0 % bound
    }

    fn of<T: Clone>(&mut self, choices: &[T]) -> T {
        choices[self.below(choices.len() as u64) as usize].clone()
    }
}

fn object(chance: &mut Chance) -> Uid {
    let k = chance.below(3) as u8;
    chance.of(&[
        uid::C_PIN_SID,
        uid::C_PIN_MSID,
        uid::TPER_INFO,
        uid::ADMIN_SP,
        uid::LOCKING_SP,
        uid::THIS_SP,
        uid::GLOBAL_RANGE,
        uid::range(k + 1),
        uid::range(k + 1),
        uid::MBR_CONTROL,
        uid::admin(k),
        uid::user(k),
        uid::c_pin_admin(k),
        uid::c_pin_user(k),
    ])
}

fn pin(chance: &mut Chance) -> Vec<u8> {
    chance.of(&[MSID.to_vec(), MSID.to_vec(), vec![], b"a".to_vec(), vec![1; 33]])
}

fn columns(chance: &mut Chance) -> Vec<u8> {
    let mut tokens = vec![];
    for _ in 0..chance.below(4) {
        let column = chance.below(11);
        match column {
            3 if chance.below(2) == 0 => named_bytes(&mut tokens, 3, &pin(chance)),
            3 | 4 => named_integer(&mut tokens, column, chance.below(10) * 111_111),
            9 => named_integers(&mut tokens, 9, &[0, 3][..chance.below(3) as usize]),
            _ => named_integer(&mut tokens, column, chance.of(&[0, 0, 1, 1, 2])),
        }
    }
    tokens
}

fn payload(chance: &mut Chance) -> Vec<u8> {
    let sp = chance.of(&[uid::ADMIN_SP, uid::LOCKING_SP]);
    match chance.below(24) {
        0..=5 => requests::get(&object(chance), Some(chance.below(6)), chance.of(&[None, Some(6), Some(9), Some(19)])),
        6..=13 => requests::set(&object(chance), &columns(chance)),
        14..=16 => {
            let authority =
                chance.of(&[uid::SID, uid::admin(1), uid::admin(1), uid::user(1), uid::ADMINS, uid::ANYBODY]);
            requests::authenticate(&authority, Some(&pin(chance)))
        }
        17 => requests::activate(&sp),
        18 if chance.below(8) == 0 => requests::revert(&sp),
        18 if chance.below(4) == 0 => requests::revert_sp(),
        19 => requests::begin(),
        20 => requests::commit(),
        21 => requests::abandon(),
        22 => requests::end_session(),
        _ => built(|tokens| requests::bytes(tokens, &uid::SID)),
    }
}

fn start(chance: &mut Chance) -> Vec<u8> {
    let (sp, authority) = chance.of(&[
        (uid::ADMIN_SP, Some(uid::SID)),
        (uid::ADMIN_SP, None),
        (uid::LOCKING_SP, Some(uid::admin(1))),
        (uid::LOCKING_SP, Some(uid::admin(1))),
        (uid::LOCKING_SP, Some(uid::user(1))),
    ]);
    let challenge = authority.map(|_| pin(chance));
    requests::start_session(7, &sp, true, challenge.as_deref(), authority.as_ref())
}

#[test]
fn histories() {
    let mut statuses = [0u32; 256];
    for seed in 1..=40 {
        let mut chance = Chance(u64::wrapping_mul(seed, 0x9E37_79B9_7F4A_7C15));
        let mut host = Host::new();
        for _ in 0..300 {
            let image = host.card.image();
            let mut request = if image[179] == 0 || chance.below(20) == 0 {
                requests::envelope(0, 0, &start(&mut chance))
            } else {
                requests::envelope(word(&image, 181), word(&image, 185), &payload(&mut chance))
            };
            if chance.below(40) == 0 {
                let at = chance.below(request.len() as u64) as usize;
                request[at] ^= 1 << chance.below(8);
            }
            if let Ok(answer) = host.send_raw(&request) {
                if let [.., 0xF9, 0xF0, status, 0, 0, 0xF1] = answer.payload[..] {
                    statuses[usize::from(status)] += 1;
                }
            }
            match chance.below(60) {
                0 => assert_eq!(host.card.power_cycle(), 0),
                1 => assert_ne!(host.card.tper_reset(), 1),
                _ => (),
            }
            assert!(host.card.sound());
            assert_eq!(Card::from_image(&host.card.image()), Some(host.card.clone()));
        }
    }
    for status in [0x00, 0x01, 0x07, 0x0C, 0x12, 0x3F] {
        assert!(statuses[status] > 0, "{status:02X} never came");
    }
}

#[test]
fn payloads_of_any_bytes() {
    let mut chance = Chance(77);
    let leads = [0x00, 0x01, 0x81, 0xA0, 0xA8, 0xC0, 0xD0, 0xE0, 0xE2, 0xF0, 0xF1, 0xF2, 0xF3, 0xF8, 0xF9, 0xFA, 0xFF];
    for _ in 0..3_000 {
        let bytes: Vec<u8> = (0..1 + chance.below(40)).map(|_| chance.of(&leads)).collect();
        let mut host = Host::new();
        let payload = if chance.below(2) == 0 { bytes } else { requests::call(&uid::C_PIN_MSID, &uid::GET, &bytes) };
        assert_eq!(host.start(&uid::ADMIN_SP, None, None), 0);
        host.send_raw(&requests::envelope(host.tsn, host.hsn, &payload)).unwrap();
    }
}
