//! The record: every cell the card keeps, its factory state, and what makes it sound.

/// The session number the card gives out. Kept apart from [`Hsn`]: "different kinds of number".
#[derive(Clone, Copy, PartialEq, Eq, Debug, Default)]
pub(crate) struct Tsn(pub u32);

/// The session number the host gives out.
#[derive(Clone, Copy, PartialEq, Eq, Debug, Default)]
pub(crate) struct Hsn(pub u32);

/// PIN rows and authorities in one order: SID, Admin1 to Admin4, User1 to User8.
pub(crate) const PIN_ROWS: usize = 13;
pub(crate) const SID: usize = 0;
pub(crate) const ADMIN1: usize = 1;
pub(crate) const USER1: usize = 5;
/// The global range is row 0.
pub(crate) const RANGES: usize = 5;
pub(crate) const PIN_LIMIT: usize = 32;
pub(crate) const TRY_LIMIT: u8 = 5;

const SMALLEST_DISK: u64 = 262_144;
const LARGEST_DISK: u64 = 1 << 40;

#[derive(Clone, Copy, PartialEq, Eq, Debug, Default)]
pub(crate) struct Range {
    pub start: u64,
    pub length: u64,
    pub read_lock_enabled: bool,
    pub write_lock_enabled: bool,
    pub read_locked: bool,
    pub write_locked: bool,
    /// LockOnReset is {0, 3}, not {0}.
    pub lock_on_reset_3: bool,
}

impl Range {
    /// The first sector past the range, as a whole number: start + length may pass 64 bits.
    pub fn end(&self) -> u128 {
        u128::from(self.start) + u128::from(self.length)
    }

    /// How many sectors from `start` up to, not with, `end` this range holds; none where its length is 0.
    pub fn share(&self, start: u128, end: u128) -> u128 {
        end.min(self.end()).saturating_sub(start.max(u128::from(self.start)))
    }
}

#[derive(Clone, Copy, PartialEq, Eq, Debug, Default)]
pub(crate) struct MbrControl {
    pub enable: bool,
    pub done: bool,
    /// DoneOnReset is {0, 3}, not {0}.
    pub done_on_reset_3: bool,
}

/// The cells a transaction covers, the PINs aside.
#[derive(Clone, Copy, PartialEq, Eq, Debug, Default)]
pub(crate) struct Tables {
    /// LifeCycle of the Locking SP is 9, not 8.
    pub locking_active: bool,
    pub ranges: [Range; RANGES],
    pub mbr: MbrControl,
    pub enabled: [bool; PIN_ROWS],
    /// Column 8 of TPerInfo, ProgrammaticResetEnable.
    pub reset_enabled: bool,
}

impl Tables {
    fn factory() -> Self {
        let mut tables = Tables::default();
        tables.enabled[SID] = true;
        tables.restore_locking();
        tables
    }

    /// The Locking SP's cells as made; SID and TPerInfo are the Admin SP's.
    pub fn restore_locking(&mut self) {
        let factory = Tables::default();
        self.locking_active = factory.locking_active;
        self.ranges = factory.ranges;
        self.mbr = factory.mbr;
        for (row, enabled) in self.enabled.iter_mut().enumerate().skip(ADMIN1) {
            *enabled = row == ADMIN1;
        }
    }
}

/// The length is kept as it came in an image, even where no PIN may be so long: that record is unsound.
#[derive(Clone, Copy, PartialEq, Eq, Debug, Default)]
pub(crate) struct Pin {
    pub length: u8,
    pub bytes: [u8; PIN_LIMIT],
}

impl Pin {
    /// None over 32 bytes.
    pub fn new(pin: &[u8]) -> Option<Self> {
        let mut bytes = [0; PIN_LIMIT];
        bytes.get_mut(..pin.len())?.copy_from_slice(pin);
        Some(Pin { length: pin.len() as u8, bytes })
    }

    fn sound(&self) -> bool {
        match self.bytes.get(usize::from(self.length)..) {
            Some(past) => past.iter().all(|byte| *byte == 0),
            None => false,
        }
    }
}

#[derive(Clone, Copy, PartialEq, Eq, Debug, Default)]
pub(crate) struct Session {
    pub open: bool,
    /// To the Locking SP, not the Admin SP.
    pub locking: bool,
    pub tsn: Tsn,
    pub hsn: Hsn,
    pub proved: [bool; PIN_ROWS],
}

/// The card: its record and all that is asked of it.
#[derive(Clone, PartialEq, Eq, Debug)]
pub struct Card {
    /// N, the disk's sectors.
    pub(crate) sectors: u64,
    pub(crate) msid: [u8; PIN_LIMIT],
    pub(crate) tables: Tables,
    pub(crate) pins: [Pin; PIN_ROWS],
    /// Apart from the tables and PINs, for they outlive an abandoned transaction.
    pub(crate) tries: [u8; PIN_ROWS],
    pub(crate) session: Session,
    pub(crate) next_tsn: Tsn,
    pub(crate) in_transaction: bool,
    pub(crate) tables_before: Tables,
    pub(crate) pins_before: [Pin; PIN_ROWS],
}

impl Card {
    /// A card as made, of `n` sectors; None where `n` is out of its bounds or the MSID is not 32 bytes.
    pub fn factory(n: u64, msid: &[u8]) -> Option<Card> {
        if !disk_in_bounds(n) {
            return None;
        }
        let mut card = Card {
            sectors: n,
            msid: msid.try_into().ok()?,
            tables: Tables::factory(),
            pins: Default::default(),
            tries: Default::default(),
            session: Session::default(),
            next_tsn: Tsn(1),
            in_transaction: false,
            tables_before: Tables::default(),
            pins_before: Default::default(),
        };
        card.restore_admin();
        Some(card)
    }

    /// "A record is sound when": document 01's list, and what the image adds to it.
    pub fn sound(&self) -> bool {
        disk_in_bounds(self.sectors)
            && self.tries.iter().all(|tries| *tries <= TRY_LIMIT)
            && self.next_tsn.0 != 0
            && self.session_sound()
            && self.cells_sound(&self.tables, &self.pins)
            && self.transaction_sound()
    }

    fn session_sound(&self) -> bool {
        if !self.session.open {
            return self.session == Session::default();
        }
        self.session.tsn.0 != 0
            // SID is known to the Admin SP, every other PIN row to the Locking SP.
            && (0..PIN_ROWS).all(|row| !self.session.proved[row] || (row == SID) != self.session.locking)
    }

    /// The cells a transaction covers, and the session by them: once as they stand, once as a rollback would leave them.
    fn cells_sound(&self, tables: &Tables, pins: &[Pin; PIN_ROWS]) -> bool {
        let global = &tables.ranges[0];
        global.start == 0
            && global.length == 0
            && ranges_fit(&tables.ranges, self.sectors)
            && tables.enabled[SID]
            && pins.iter().all(Pin::sound)
            && (tables.locking_active || !self.session.locking)
    }

    fn transaction_sound(&self) -> bool {
        if self.in_transaction {
            self.session.open && self.cells_sound(&self.tables_before, &self.pins_before)
        } else {
            self.tables_before == Tables::default() && self.pins_before == <[Pin; PIN_ROWS]>::default()
        }
    }

    /// The Locking SP's cells as made, Tries too.
    pub(crate) fn restore_locking(&mut self) {
        self.tables.restore_locking();
        self.pins[ADMIN1..].fill(Pin::default());
        self.tries[ADMIN1..].fill(0);
    }

    /// The Admin SP's cells as made, Tries too; the TSN counter is no cell of an SP.
    pub(crate) fn restore_admin(&mut self) {
        self.tables.reset_enabled = false;
        self.pins[SID] = Pin { length: PIN_LIMIT as u8, bytes: self.msid };
        self.tries[SID] = 0;
    }

    /// False where one is open already: there is one level.
    pub(crate) fn begin(&mut self) -> bool {
        if self.in_transaction {
            return false;
        }
        self.in_transaction = true;
        self.tables_before = self.tables;
        self.pins_before = self.pins;
        true
    }

    /// False where none is open.
    pub(crate) fn commit(&mut self) -> bool {
        let was_open = self.in_transaction;
        self.in_transaction = false;
        self.tables_before = Tables::default();
        self.pins_before = Default::default();
        was_open
    }

    /// False where none is open. Tries and proved authorities stay as they are now.
    pub(crate) fn abandon(&mut self) -> bool {
        if self.in_transaction {
            self.tables = self.tables_before;
            self.pins = self.pins_before;
        }
        self.commit()
    }

    /// Every end of a session abandons its transaction.
    pub(crate) fn close_session(&mut self) {
        self.abandon();
        self.session = Session::default();
    }
}

fn disk_in_bounds(n: u64) -> bool {
    (SMALLEST_DISK..=LARGEST_DISK).contains(&n)
}

/// No two non-global ranges share a sector and each ends within N.
/// A length of 0 shares nothing, but its start is held to N all the same.
pub(crate) fn ranges_fit(ranges: &[Range; RANGES], sectors: u64) -> bool {
    let others = &ranges[1..];
    others.iter().all(|range| range.end() <= u128::from(sectors))
        && others.iter().enumerate().all(|(at, range)| {
            others[at + 1..].iter().all(|later| range.share(u128::from(later.start), later.end()) == 0)
        })
}
