//! A host for the tests: it sends payloads and takes answers apart by hand, not with the card's own reader.
#![allow(dead_code)]

use second::requests;
use second::uid::{self, Uid};
use second::Card;

pub const N: u64 = 1_000_000;
pub const MSID: [u8; 32] = *b"0123456789abcdefghijklmnopqrstuv";
pub const HSN: u32 = 105;

pub struct Host {
    pub card: Card,
    pub tsn: u32,
    pub hsn: u32,
}

/// An answer: the envelope's numbers and the payload.
#[derive(PartialEq, Eq, Debug)]
pub struct Answer {
    pub tsn: u32,
    pub hsn: u32,
    pub payload: Vec<u8>,
}

impl Answer {
    /// The status at the payload's end: F0 status 00 00 F1.
    pub fn status(&self) -> u8 {
        let [.., 0xF9, 0xF0, status, 0, 0, 0xF1] = self.payload[..] else {
            panic!("no status: {:02X?}", self.payload);
        };
        status
    }

    /// What stands before F9.
    pub fn result(&self) -> &[u8] {
        &self.payload[..self.payload.len() - 6]
    }
}

pub fn word(bytes: &[u8], at: usize) -> u32 {
    u32::from_be_bytes(bytes[at..at + 4].try_into().unwrap())
}

impl Host {
    pub fn new() -> Host {
        Host::with(Card::factory(N, &MSID).unwrap())
    }

    pub fn with(card: Card) -> Host {
        Host { card, tsn: 0, hsn: 0 }
    }

    /// A host with the Locking SP active and a session to it in which Admin1 (PIN: the MSID) is proved.
    pub fn admin1() -> Host {
        let mut host = Host::new();
        host.activate();
        assert_eq!(host.start(&uid::LOCKING_SP, Some(&MSID), Some(&uid::admin(1))), 0);
        host
    }

    pub fn activate(&mut self) {
        assert_eq!(self.start(&uid::ADMIN_SP, Some(&MSID), Some(&uid::SID)), 0);
        assert_eq!(self.call(requests::activate(&uid::LOCKING_SP)), 0);
        self.end();
    }

    /// Sends a whole request; checks that bytes past the answer stay, that the record stays sound, and the envelope's sums.
    pub fn send_raw(&mut self, request: &[u8]) -> Result<Answer, u8> {
        let before = self.card.image();
        let mut buffer = vec![0xEE; 2048];
        let (number, count) = self.card.command(request, &mut buffer);
        assert!(buffer[count..].iter().all(|byte| *byte == 0xEE));
        if number != 0 {
            assert_eq!((count, self.card.image()), (0, before));
            return Err(number);
        }
        assert!(self.card.sound());
        let answer = &buffer[..count];
        let size = word(answer, 52) as usize;
        let padded = size.next_multiple_of(4);
        assert_eq!(count, 56 + padded);
        assert_eq!(word(answer, 40) as usize, 12 + padded);
        assert_eq!(word(answer, 16) as usize, 36 + padded);
        assert_eq!(answer[..16], [0, 0, 0, 0, 0x10, 0, 0, 0, 0, 0, 0, 0, 0, 0, 0, 0]);
        assert!(answer[28..40].iter().chain(&answer[44..52]).chain(&answer[56 + size..]).all(|byte| *byte == 0));
        Ok(Answer { tsn: word(answer, 20), hsn: word(answer, 24), payload: answer[56..56 + size].to_vec() })
    }

    pub fn send(&mut self, payload: &[u8]) -> Answer {
        let (tsn, hsn) = (self.tsn, self.hsn);
        let answer = self.send_raw(&requests::envelope(tsn, hsn, payload)).unwrap();
        assert_eq!((answer.tsn, answer.hsn), (tsn, hsn));
        answer
    }

    /// The status of a call in the session.
    pub fn call(&mut self, payload: Vec<u8>) -> u8 {
        self.send(&payload).status()
    }

    /// Starts a session and goes on in it; the status.
    pub fn start(&mut self, sp: &Uid, challenge: Option<&[u8]>, authority: Option<&Uid>) -> u8 {
        let payload = requests::start_session(u64::from(HSN), sp, true, challenge, authority);
        let answer = self.start_with(&payload);
        if answer.status() == 0 {
            self.hsn = HSN;
            self.tsn = word(&self.card.image(), 181);
        }
        answer.status()
    }

    /// Sends on 0, 0.
    pub fn start_with(&mut self, payload: &[u8]) -> Answer {
        self.send_raw(&requests::envelope(0, 0, payload)).unwrap()
    }

    pub fn end(&mut self) {
        assert_eq!(self.send(&[0xFA]).payload, [0xFA]);
        (self.tsn, self.hsn) = (0, 0);
    }

    /// The inner list of a Get that succeeds, without its ends.
    pub fn get(&mut self, object: &Uid, start: Option<u64>, end: Option<u64>) -> Vec<u8> {
        let answer = self.send(&requests::get(object, start, end));
        assert_eq!(answer.status(), 0);
        let [0xF0, 0xF0, held @ .., 0xF1, 0xF1] = answer.result() else {
            panic!("no inner list: {:02X?}", answer.payload);
        };
        held.to_vec()
    }

    /// Sets integers; the status.
    pub fn set(&mut self, object: &Uid, columns: &[(u64, u64)]) -> u8 {
        let columns = requests::built(|tokens| {
            for (column, value) in columns {
                requests::named_integer(tokens, *column, *value);
            }
        });
        self.call(requests::set(object, &columns))
    }

    pub fn authenticate(&mut self, authority: &Uid, proof: &[u8]) -> Answer {
        self.send(&requests::authenticate(authority, Some(proof)))
    }
}
