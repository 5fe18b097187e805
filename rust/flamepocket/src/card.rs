//! The card and what is asked of it.

use std::fmt;
use std::ops::Deref;

use crate::ffi;
use crate::refusal::Refusal;

/// The least room of an answer buffer, and the most that an answer takes.
pub const ANSWER_ROOM: usize = 2048;

/// A card with a sound record. Printed by `{:?}` it shows its length alone, since the record holds the PINs.
#[derive(Clone, PartialEq, Eq)]
pub struct Card {
    image: Vec<u8>,
}

/// The answer to a request: it stands for its bytes.
#[derive(Clone, Debug)]
pub struct Answer {
    room: [u8; ANSWER_ROOM],
    count: usize,
}

/// What becomes of a read or a write of the disk.
#[derive(Clone, Copy, PartialEq, Eq, Hash, Debug)]
pub enum Verdict {
    /// From or to the disk.
    Disk,
    /// A read that comes from the shadow.
    Shadow,
    Refused,
}

impl Card {
    /// A card as made, for a disk of `n` sectors of 512 bytes.
    ///
    /// [`Refusal::Unsound`] where `n` is not within 262,144 to 2^40 or the MSID is not 32 bytes: that record would be.
    ///
    /// ```
    /// use flamepocket::{Card, Refusal};
    ///
    /// assert!(Card::factory(1_000_000, &[b'm'; 32]).is_ok());
    /// assert_eq!(Card::factory(1_000, &[b'm'; 32]), Err(Refusal::Unsound));
    /// assert_eq!(Card::factory(1_000_000, b"short"), Err(Refusal::Unsound));
    /// ```
    pub fn factory(n: u64, msid: &[u8]) -> Result<Card, Refusal> {
        let mut image = vec![0; ffi::record_length()];
        done(ffi::factory(&mut image, n, msid))?;
        Ok(Card { image })
    }

    /// The card that an image is of; bytes that are no image, and images of unsound records, are refused.
    ///
    /// ```
    /// use flamepocket::{Card, Refusal};
    ///
    /// let card = Card::factory(1_000_000, &[b'm'; 32])?;
    /// let mut image = card.image().to_vec();
    /// assert_eq!(Card::from_image(&image)?, card);
    ///
    /// image[3..11].fill(0); // a disk of no sectors
    /// assert_eq!(Card::from_image(&image), Err(Refusal::Unsound));
    /// # Ok::<(), Refusal>(())
    /// ```
    pub fn from_image(image: &[u8]) -> Result<Card, Refusal> {
        done(ffi::sound(image))?;
        Ok(Card { image: image.to_vec() })
    }

    /// The whole record, as `docs/IMAGE.md` lays it out. It holds the PINs.
    pub fn image(&self) -> &[u8] {
        &self.image
    }

    /// One request, a ComPacket, and its answer.
    ///
    /// ```
    /// use flamepocket::{Card, Refusal};
    ///
    /// // StartSession to the Admin SP for host session 105: ComPacket, Packet and Subpacket around the call.
    /// let call = [
    ///     0xF8, 0xA8, 0, 0, 0, 0, 0, 0, 0, 0xFF, 0xA8, 0, 0, 0, 0, 0, 0, 0xFF, 0x02, // the session manager's StartSession
    ///     0xF0, 0x81, 105, 0xA8, 0, 0, 2, 5, 0, 0, 0, 1, 1, 0xF1, // host session, Admin SP, Write
    ///     0xF9, 0xF0, 0, 0, 0, 0xF1,
    /// ];
    /// let mut request = vec![0; 56];
    /// request[4] = 0x10; // ComID 1000 hex
    /// request[19] = 24 + 12 + 40; // lengths: the call has 39 bytes and 1 of pad
    /// request[43] = 12 + 40;
    /// request[55] = 39;
    /// request.extend(call);
    /// request.push(0);
    ///
    /// let mut card = Card::factory(1_000_000, &[b'm'; 32])?;
    /// let answer = card.command(&request)?;
    /// assert_eq!(answer.len(), 88); // SyncSession
    /// assert_eq!(answer[75..79], [0xF0, 0x81, 105, 1]); // the host's number and the card's: TSN 1
    ///
    /// assert_eq!(card.command(&request[..95]).err(), Some(Refusal::Envelope)); // cut short
    /// # Ok::<(), Refusal>(())
    /// ```
    pub fn command(&mut self, request: &[u8]) -> Result<Answer, Refusal> {
        let mut room = [0; ANSWER_ROOM];
        let count = self.command_in(request, &mut room)?;
        Ok(Answer { room, count })
    }

    /// One request, answered in a buffer of any length: the count of its bytes that are the answer. Those past the count,
    /// and all of them where the request is refused, stay as they were.
    ///
    /// ```
    /// use flamepocket::{Card, Refusal, ANSWER_ROOM};
    ///
    /// let mut card = Card::factory(1_000_000, &[b'm'; 32])?;
    /// let mut answer = [0xEE; ANSWER_ROOM];
    /// assert_eq!(card.command_in(&[], &mut answer[1..]), Err(Refusal::AnswerRoom));
    /// assert_eq!(card.command_in(&[], &mut answer), Err(Refusal::Envelope));
    /// assert_eq!(answer, [0xEE; ANSWER_ROOM]);
    /// # Ok::<(), Refusal>(())
    /// ```
    pub fn command_in(&mut self, request: &[u8], answer: &mut [u8]) -> Result<usize, Refusal> {
        match ffi::command(&mut self.image, request, answer) {
            number @ 1..=7 => Err(Refusal::from_number(number)),
            count => Ok(count),
        }
    }

    /// A power cycle: the session is closed, its transaction abandoned, and an active Locking SP locks.
    ///
    /// ```
    /// let mut card = flamepocket::Card::factory(1_000_000, &[b'm'; 32])?;
    /// card.power_cycle()?;
    /// # Ok::<(), flamepocket::Refusal>(())
    /// ```
    pub fn power_cycle(&mut self) -> Result<(), Refusal> {
        done(ffi::power_cycle(&mut self.image))
    }

    /// TPER_RESET, which SID enables by column 8 of TPerInfo.
    ///
    /// ```
    /// use flamepocket::{Card, Refusal};
    ///
    /// let mut card = Card::factory(1_000_000, &[b'm'; 32])?;
    /// assert_eq!(card.tper_reset(), Err(Refusal::ResetDisabled));
    /// # Ok::<(), Refusal>(())
    /// ```
    pub fn tper_reset(&mut self) -> Result<(), Refusal> {
        done(ffi::tper_reset(&mut self.image))
    }

    /// Whether `count` sectors from `start` on may be read, and where from.
    ///
    /// ```
    /// use flamepocket::{Card, Verdict};
    ///
    /// let card = Card::factory(1_000_000, &[b'm'; 32])?;
    /// assert_eq!(card.read(999_999, 1)?, Verdict::Disk);
    /// assert_eq!(card.read(999_999, 2)?, Verdict::Refused);
    /// # Ok::<(), flamepocket::Refusal>(())
    /// ```
    pub fn read(&self, start: u64, count: u64) -> Result<Verdict, Refusal> {
        self.media(false, start, count)
    }

    /// Whether `count` sectors from `start` on may be written.
    ///
    /// ```
    /// use flamepocket::{Card, Verdict};
    ///
    /// let card = Card::factory(1_000_000, &[b'm'; 32])?;
    /// assert_eq!(card.write(0, 1_000_000)?, Verdict::Disk);
    /// assert_eq!(card.write(u64::MAX, 2)?, Verdict::Refused);
    /// # Ok::<(), flamepocket::Refusal>(())
    /// ```
    pub fn write(&self, start: u64, count: u64) -> Result<Verdict, Refusal> {
        self.media(true, start, count)
    }

    fn media(&self, write: bool, start: u64, count: u64) -> Result<Verdict, Refusal> {
        match ffi::media(&self.image, write, start, count) {
            0 => Ok(Verdict::Disk),
            2 => Ok(Verdict::Shadow),
            3 => Ok(Verdict::Refused),
            number => Err(Refusal::from_number(number)),
        }
    }
}

impl fmt::Debug for Card {
    fn fmt(&self, out: &mut fmt::Formatter<'_>) -> fmt::Result {
        write!(out, "Card({} bytes)", self.image.len())
    }
}

impl Deref for Answer {
    type Target = [u8];

    fn deref(&self) -> &[u8] {
        &self.room[..self.count]
    }
}

/// The result of a function that has nothing to give.
fn done(number: usize) -> Result<(), Refusal> {
    match number {
        0 => Ok(()),
        number => Err(Refusal::from_number(number)),
    }
}
