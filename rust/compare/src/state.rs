//! What a history's generator knows of the card: it reads the image, as `docs/IMAGE.md` lays it out.

use crate::big_endian::{long, word};

pub const IMAGE_LENGTH: usize = 1188;
pub const PIN_ROWS: usize = 13;
pub const RANGES: usize = 5;
pub const SHADOW: u64 = 262_144;

/// Places of the cells in an image.
pub mod place {
    pub const VERSION: usize = 0;
    pub const RANGE_COUNT: usize = 1;
    pub const USER_COUNT: usize = 2;
    pub const N: usize = 3;
    pub const MSID: usize = 11;
    pub const TABLES: usize = 43;
    pub const TABLES_SIZE: usize = 123;
    pub const TRIES: usize = 166;
    pub const SESSION: usize = 179;
    pub const SESSION_SIZE: usize = 23;
    pub const SESSION_LOCKING: usize = 180;
    pub const SESSION_TSN: usize = 181;
    pub const SESSION_HSN: usize = 185;
    pub const PROVED: usize = 189;
    pub const NEXT_TSN: usize = 202;
    pub const TRANSACTION: usize = 206;
    pub const TABLES_BEFORE: usize = 207;
    pub const PINS: usize = 330;
    pub const PINS_BEFORE: usize = 759;
    pub const PINS_SIZE: usize = 429;
    pub const PIN_SIZE: usize = 33;

    // Within the tables.
    pub const ACTIVE: usize = 0;
    pub const RANGES: usize = 1;
    pub const RANGE_SIZE: usize = 21;
    pub const RANGE_FLAGS: usize = 16;
    pub const MBR: usize = 106;
    pub const ENABLED: usize = 109;
    pub const RESET_ENABLED: usize = 122;
}

/// The image of a sound record.
#[derive(Clone)]
pub struct State(pub Vec<u8>);

#[derive(Clone, Copy)]
pub struct Session {
    pub tsn: u32,
    pub hsn: u32,
    pub locking: bool,
}

impl State {
    fn flag(&self, at: usize) -> bool {
        self.0[at] == 1
    }

    pub fn n(&self) -> u64 {
        long(&self.0, place::N)
    }

    pub fn msid(&self) -> &[u8] {
        &self.0[place::MSID..place::TABLES]
    }

    pub fn locking_active(&self) -> bool {
        self.flag(place::TABLES + place::ACTIVE)
    }

    pub fn reset_enabled(&self) -> bool {
        self.flag(place::TABLES + place::RESET_ENABLED)
    }

    /// Start and length of a range.
    pub fn range(&self, row: usize) -> (u64, u64) {
        let at = place::TABLES + place::RANGES + row * place::RANGE_SIZE;
        (long(&self.0, at), long(&self.0, at + 8))
    }

    pub fn enabled(&self, row: usize) -> bool {
        self.flag(place::TABLES + place::ENABLED + row)
    }

    pub fn tries(&self, row: usize) -> u8 {
        self.0[place::TRIES + row]
    }

    pub fn proved(&self, row: usize) -> bool {
        self.flag(place::PROVED + row)
    }

    pub fn pin(&self, row: usize) -> &[u8] {
        let at = place::PINS + row * place::PIN_SIZE;
        &self.0[at + 1..at + 1 + usize::from(self.0[at])]
    }

    pub fn in_transaction(&self) -> bool {
        self.flag(place::TRANSACTION)
    }

    pub fn session(&self) -> Option<Session> {
        self.flag(place::SESSION).then(|| Session {
            tsn: word(&self.0, place::SESSION_TSN),
            hsn: word(&self.0, place::SESSION_HSN),
            locking: self.flag(place::SESSION_LOCKING),
        })
    }

    /// Sectors at which something begins or ends: the disk, the shadow, each range, the numbers themselves.
    pub fn borders(&self) -> Vec<u64> {
        let mut borders = vec![0, SHADOW, self.n(), u64::MAX];
        for row in 1..RANGES {
            let (start, length) = self.range(row);
            borders.extend([start, start + length]);
        }
        borders
    }
}
