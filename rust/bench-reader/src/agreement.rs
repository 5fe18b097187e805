//! Whether readers say the same of payloads made by chance, whole and damaged: times are worth nothing where they do not.

use std::fmt;

use chance::Chance;

use crate::readers::{Answer, Reader};
use crate::{damage, tokens};

/// Bytes with the place where a payload starts in them.
#[derive(Clone)]
pub struct Sample {
    pub bytes: Vec<u8>,
    pub at: usize,
}

/// How many payloads the readers took for whole and for broken.
#[derive(Default)]
pub struct Agreement {
    pub whole: usize,
    pub broken: usize,
}

/// The shortest payload found of which the readers do not say the same.
pub struct Difference {
    pub sample: Sample,
    answers: Vec<(&'static str, Answer)>,
}

/// Asks all readers about `count` payloads made from `seed`.
pub fn seek(readers: &[Reader], seed: u64, count: usize) -> Result<Agreement, Difference> {
    let mut chance = Chance::new(seed);
    let mut agreement = Agreement::default();
    let mut differing: Option<Sample> = None;
    for _ in 0..count {
        let sample = sample(&mut chance);
        match common(readers, &sample) {
            Some(Answer { number: 0, .. }) => agreement.broken += 1,
            Some(_) => agreement.whole += 1,
            None if differing.as_ref().is_some_and(|shortest| shortest.bytes.len() <= sample.bytes.len()) => {}
            None => differing = Some(sample),
        }
    }
    match differing {
        None => Ok(agreement),
        Some(sample) => Err(Difference::new(readers, shortest(readers, sample))),
    }
}

/// The answer that all readers give; None where they differ.
pub fn common(readers: &[Reader], sample: &Sample) -> Option<Answer> {
    let mut answers = readers.iter().map(|reader| reader.answer(&sample.bytes, sample.at));
    let first = answers.next()?;
    answers.all(|answer| answer == first).then_some(first)
}

/// Half of the payloads are damaged, some have bytes before them, and of a few the place is past their end.
fn sample(chance: &mut Chance) -> Sample {
    let mut tokens = tokens::payload(chance);
    let damaged = chance.one_in(2);
    if damaged && chance.one_in(2) {
        damage::tokens(chance, &mut tokens);
    }
    let often = if chance.one_in(4) { 2 } else { 200 };
    let mut bytes = damage::with_empty(chance, &tokens, often);
    if damaged {
        for _ in 0..chance.below(3) {
            if !bytes.is_empty() {
                damage::bytes(chance, &mut bytes);
            }
        }
    }
    let at = match chance.below(200) {
        0..=49 => chance.index(60),
        50 => return Sample { at: bytes.len() + chance.index(2), bytes },
        51 => return Sample { at: usize::MAX, bytes },
        _ => 0,
    };
    Sample { bytes: [chance.bytes(at), bytes].concat(), at }
}

/// Drops bytes while the readers still differ.
fn shortest(readers: &[Reader], mut sample: Sample) -> Sample {
    let alone = Sample { bytes: sample.bytes.get(sample.at..).unwrap_or_default().to_vec(), at: 0 };
    if common(readers, &alone).is_none() {
        sample = alone;
    }
    let mut size = sample.bytes.len();
    while size > 0 {
        let mut from = sample.at.min(sample.bytes.len());
        while from < sample.bytes.len() {
            let mut fewer = sample.clone();
            fewer.bytes.drain(from..sample.bytes.len().min(from + size));
            match common(readers, &fewer) {
                None => sample = fewer,
                Some(_) => from += size,
            }
        }
        size /= 2;
    }
    sample
}

impl Difference {
    pub fn new(readers: &[Reader], sample: Sample) -> Self {
        let answers = readers.iter().map(|reader| (reader.name, reader.answer(&sample.bytes, sample.at))).collect();
        Difference { sample, answers }
    }
}

impl fmt::Display for Difference {
    fn fmt(&self, to: &mut fmt::Formatter) -> fmt::Result {
        let hex: Vec<String> = self.sample.bytes.iter().map(|byte| format!("{byte:02X}")).collect();
        writeln!(to, "the readers differ, from byte {} on, of:\n{}", self.sample.at, hex.join(" "))?;
        for (name, Answer { number, words }) in &self.answers {
            writeln!(to, "{name}: {number}, words {words:X?}")?;
        }
        Ok(())
    }
}

#[cfg(test)]
mod tests {
    use super::*;
    use crate::readers;

    #[test]
    fn readers_agree() {
        match seek(&readers::ALL, 1, 6_000) {
            Ok(agreement) => assert!(agreement.whole > 2_000 && agreement.broken > 2_000),
            Err(difference) => panic!("{difference}"),
        }
    }

    #[test]
    fn a_wrong_reader_is_found_and_its_payload_made_short() {
        let wrong = Reader {
            name: "no empty token in front",
            read: |bytes, at, words| match bytes.get(at) {
                Some(0xFF) => 0,
                _ => (readers::ALL[0].read)(bytes, at, words),
            },
        };
        let difference = seek(&[readers::ALL[0], wrong], 1, 6_000).err().expect("no difference was found");
        assert_eq!((&difference.sample.bytes[..], difference.sample.at), (&[0xFF, 0xFA][..], 0));
        assert!(difference.to_string().contains("\nFF FA\n"), "{difference}");
    }
}
