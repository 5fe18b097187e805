//! Resets and questions of the media ("Resets and the media").

use crate::record::{Card, Range, Tables, Tsn};

/// The shadow covers the sectors below this one.
pub const SHADOW_SECTORS: u64 = 262_144;

/// The verdict on a read or a write.
#[derive(Clone, Copy, PartialEq, Eq, Debug)]
pub enum Ruling {
    /// Number 1: the record is unsound.
    Unsound,
    Disk,
    Shadow,
    Refused,
}

impl Card {
    /// 0, or 1 where the record is unsound.
    pub fn power_cycle(&mut self) -> u8 {
        if !self.sound() {
            return 1;
        }
        self.reset();
        self.tries.fill(0);
        self.next_tsn = Tsn(1);
        0
    }

    /// 0, 1 where the record is unsound, or 7 where it is disabled. Tries and TSNs stay.
    pub fn tper_reset(&mut self) -> u8 {
        if !self.sound() {
            return 1;
        }
        if !self.settled().reset_enabled {
            return 7;
        }
        self.reset();
        0
    }

    /// Whether `count` sectors from `start` on may be read or written, and where a read comes from: "the first of these
    /// that applies".
    pub fn media(&self, write: bool, start: u64, count: u64) -> Ruling {
        if !self.sound() {
            return Ruling::Unsound;
        }
        let tables = self.settled();
        let (first, end) = (u128::from(start), u128::from(start) + u128::from(count));
        if end > u128::from(self.sectors) {
            return Ruling::Refused;
        }
        if count == 0 || !tables.locking_active {
            return Ruling::Disk;
        }
        if tables.mbr.enable && !tables.mbr.done && start < SHADOW_SECTORS {
            let wholly_below = end <= u128::from(SHADOW_SECTORS);
            return if wholly_below && !write { Ruling::Shadow } else { Ruling::Refused };
        }
        let [global, others @ ..] = &tables.ranges;
        let mut owned_by_others = 0;
        for range in others {
            let share = range.share(first, end);
            if share > 0 && locked(range, write) {
                return Ruling::Refused;
            }
            owned_by_others += share;
        }
        // The ranges share no sector, so what their shares leave is the global one's.
        if owned_by_others < u128::from(count) && locked(global, write) {
            return Ruling::Refused;
        }
        Ruling::Disk
    }

    /// "With a transaction open, media questions and number 7 go by the cells from before it."
    fn settled(&self) -> &Tables {
        if self.in_transaction {
            &self.tables_before
        } else {
            &self.tables
        }
    }

    /// What both resets do, "whatever LockOnReset and DoneOnReset hold". The transaction goes first, so whether Locking is
    /// active is asked of the cells from before it.
    fn reset(&mut self) {
        self.close_session();
        if self.tables.locking_active {
            for range in &mut self.tables.ranges {
                range.read_locked = true;
                range.write_locked = true;
            }
            self.tables.mbr.done = false;
        }
    }
}

fn locked(range: &Range, write: bool) -> bool {
    if write {
        range.write_lock_enabled && range.write_locked
    } else {
        range.read_lock_enabled && range.read_locked
    }
}
