//! The record as 1,188 bytes and back.

use crate::record::{Card, Hsn, MbrControl, Pin, Range, Session, Tables, Tsn, PIN_LIMIT, PIN_ROWS, RANGES};

pub const IMAGE_LENGTH: usize = 1188;

/// Version 1, four ranges beside the global one, eight users.
const HEAD: [u8; 3] = [1, 4, 8];

impl Card {
    /// None where the length, version, counts or a flag are not those of an image; an unsound record is one all the same.
    pub fn from_image(image: &[u8]) -> Option<Card> {
        if image.len() != IMAGE_LENGTH {
            return None;
        }
        let mut source = Source(image);
        if source.take::<3>()? != HEAD {
            return None;
        }
        // Fields in the order of the image, which is the order they are read in.
        let sectors = source.long()?;
        let msid = source.take()?;
        let tables = source.tables()?;
        let tries = source.take::<PIN_ROWS>()?;
        let session = source.session()?;
        let next_tsn = Tsn(source.word()?);
        let in_transaction = source.flag()?;
        let tables_before = source.tables()?;
        let pins = source.pins()?;
        let pins_before = source.pins()?;
        Some(Card { sectors, msid, tables, pins, tries, session, next_tsn, in_transaction, tables_before, pins_before })
    }

    pub fn image(&self) -> Vec<u8> {
        let mut image = Vec::with_capacity(IMAGE_LENGTH);
        image.extend(HEAD);
        image.extend(self.sectors.to_be_bytes());
        image.extend(self.msid);
        write_tables(&mut image, &self.tables);
        image.extend(self.tries);
        write_session(&mut image, &self.session);
        image.extend(self.next_tsn.0.to_be_bytes());
        image.push(u8::from(self.in_transaction));
        write_tables(&mut image, &self.tables_before);
        write_pins(&mut image, &self.pins);
        write_pins(&mut image, &self.pins_before);
        image
    }
}

fn write_flags(image: &mut Vec<u8>, flags: &[bool]) {
    image.extend(flags.iter().map(|flag| u8::from(*flag)));
}

fn write_tables(image: &mut Vec<u8>, tables: &Tables) {
    write_flags(image, &[tables.locking_active]);
    for range in &tables.ranges {
        image.extend(range.start.to_be_bytes());
        image.extend(range.length.to_be_bytes());
        let flags = [
            range.read_lock_enabled,
            range.write_lock_enabled,
            range.read_locked,
            range.write_locked,
            range.lock_on_reset_3,
        ];
        write_flags(image, &flags);
    }
    write_flags(image, &[tables.mbr.enable, tables.mbr.done, tables.mbr.done_on_reset_3]);
    write_flags(image, &tables.enabled);
    write_flags(image, &[tables.reset_enabled]);
}

fn write_session(image: &mut Vec<u8>, session: &Session) {
    write_flags(image, &[session.open, session.locking]);
    image.extend(session.tsn.0.to_be_bytes());
    image.extend(session.hsn.0.to_be_bytes());
    write_flags(image, &session.proved);
}

fn write_pins(image: &mut Vec<u8>, pins: &[Pin; PIN_ROWS]) {
    for pin in pins {
        image.push(pin.length);
        image.extend(pin.bytes);
    }
}

/// What is left of an image being read.
struct Source<'a>(&'a [u8]);

impl Source<'_> {
    fn take<const SIZE: usize>(&mut self) -> Option<[u8; SIZE]> {
        let (taken, rest) = self.0.split_first_chunk::<SIZE>()?;
        self.0 = rest;
        Some(*taken)
    }

    fn long(&mut self) -> Option<u64> {
        self.take().map(u64::from_be_bytes)
    }

    fn word(&mut self) -> Option<u32> {
        self.take().map(u32::from_be_bytes)
    }

    fn flag(&mut self) -> Option<bool> {
        match self.take()? {
            [0] => Some(false),
            [1] => Some(true),
            _ => None,
        }
    }

    fn flags(&mut self) -> Option<[bool; PIN_ROWS]> {
        let mut flags = [false; PIN_ROWS];
        for flag in &mut flags {
            *flag = self.flag()?;
        }
        Some(flags)
    }

    fn tables(&mut self) -> Option<Tables> {
        Some(Tables {
            locking_active: self.flag()?,
            ranges: self.ranges()?,
            mbr: MbrControl { enable: self.flag()?, done: self.flag()?, done_on_reset_3: self.flag()? },
            enabled: self.flags()?,
            reset_enabled: self.flag()?,
        })
    }

    fn ranges(&mut self) -> Option<[Range; RANGES]> {
        let mut ranges = [Range::default(); RANGES];
        for range in &mut ranges {
            *range = Range {
                start: self.long()?,
                length: self.long()?,
                read_lock_enabled: self.flag()?,
                write_lock_enabled: self.flag()?,
                read_locked: self.flag()?,
                write_locked: self.flag()?,
                lock_on_reset_3: self.flag()?,
            };
        }
        Some(ranges)
    }

    fn session(&mut self) -> Option<Session> {
        Some(Session {
            open: self.flag()?,
            locking: self.flag()?,
            tsn: Tsn(self.word()?),
            hsn: Hsn(self.word()?),
            proved: self.flags()?,
        })
    }

    fn pins(&mut self) -> Option<[Pin; PIN_ROWS]> {
        let mut pins = [Pin::default(); PIN_ROWS];
        for pin in &mut pins {
            let [length] = self.take()?;
            *pin = Pin { length, bytes: self.take::<PIN_LIMIT>()? };
        }
        Some(pins)
    }
}
