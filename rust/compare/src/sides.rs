//! The two programs behind one face, and what each shows after an event.

use crate::event::{hex, Event};
use crate::state::IMAGE_LENGTH;
use flamepocket::ffi;
use second::{Card, Ruling};

/// All that a program shows after an event.
#[derive(Clone, PartialEq, Eq, Debug)]
pub struct Outcome {
    /// As `include/flamepocket.h` has it: for an answered request the count of its bytes.
    pub number: usize,
    /// The whole answer buffer, or for a new card the room of its record; empty at every other event.
    pub buffer: Vec<u8>,
    pub image: Vec<u8>,
    pub sound: bool,
}

impl Outcome {
    /// The answer, where there is one.
    pub fn answer(&self) -> Option<&[u8]> {
        if self.number < SHORTEST_ANSWER {
            return None;
        }
        self.buffer.get(..self.number)
    }
}

/// No answer is shorter, and every number other than 0 is below.
const SHORTEST_ANSWER: usize = 60;

/// Both programs, on images that were equal before the event.
#[derive(Clone)]
pub struct Pair {
    library: Library,
    second: Second,
}

impl Pair {
    /// Both without a card: an image of zeros, which is none.
    pub fn new() -> Self {
        let image = vec![0; IMAGE_LENGTH];
        Pair { library: Library { image: image.clone() }, second: Second { image, card: None } }
    }

    /// What the library shows, or in words how the two differ or a program breaks a promise of its own.
    pub fn apply(&mut self, event: &Event) -> Result<Outcome, String> {
        let before = self.second.image.clone();
        let library = self.library.apply(event);
        let second = self.second.apply(event);
        let found = broken(event, &before, &library)
            .map(|words| format!("the library {words}"))
            .or_else(|| broken(event, &before, &second).map(|words| format!("the second program {words}")));
        if library == second && found.is_none() {
            return Ok(library);
        }
        let mut words = format!("library: {}\nsecond:  {}", shown(event, &library), shown(event, &second));
        if let Some(at) = first_difference(&library.image, &second.image) {
            words += &format!(
                "\nthe images differ first at byte {at}: library {}, second {}",
                at_hex(&library.image, at),
                at_hex(&second.image, at)
            );
        }
        if let Some(found) = found {
            words += &format!("\n{found}");
        }
        Err(words)
    }

    /// The image as the second program has it.
    pub fn image(&self) -> &[u8] {
        &self.second.image
    }
}

impl Default for Pair {
    fn default() -> Self {
        Pair::new()
    }
}

/// What the buffer holds before a request: no two bytes near each other are equal, so that a stray write shows.
fn filled(room: usize) -> Vec<u8> {
    (0..room).map(|at| (at * 167 + 41) as u8).collect()
}

#[derive(Clone)]
struct Library {
    image: Vec<u8>,
}

impl Library {
    fn apply(&mut self, event: &Event) -> Outcome {
        let mut buffer = vec![];
        let image = &mut self.image;
        let number = match event {
            Event::New { n, msid } => {
                buffer = filled(IMAGE_LENGTH);
                let number = ffi::factory(&mut buffer, *n, msid);
                if number == 0 {
                    image.clone_from(&buffer);
                }
                number
            }
            Event::Load(bytes) => {
                image.clone_from(bytes);
                ffi::sound(image)
            }
            Event::Command { room, request } => {
                buffer = filled(*room);
                ffi::command(image, request, &mut buffer)
            }
            Event::PowerCycle => ffi::power_cycle(image),
            Event::TperReset => ffi::tper_reset(image),
            Event::Media { write, start, count } => ffi::media(image, *write, *start, *count),
        };
        Outcome { number, buffer, image: self.image.clone(), sound: ffi::sound(&self.image) == 0 }
    }
}

#[derive(Clone)]
struct Second {
    image: Vec<u8>,
    /// None where the image is none.
    card: Option<Card>,
}

impl Second {
    fn apply(&mut self, event: &Event) -> Outcome {
        let mut buffer = vec![];
        let number = match event {
            Event::New { n, msid } => {
                buffer = filled(IMAGE_LENGTH);
                match Card::factory(*n, msid) {
                    Some(card) => {
                        buffer = card.image();
                        self.card = Some(card);
                        0
                    }
                    None => 1,
                }
            }
            Event::Load(bytes) => {
                self.image.clone_from(bytes);
                self.card = Card::from_image(bytes);
                usize::from(!self.sound())
            }
            Event::Command { room, request } => {
                buffer = filled(*room);
                match self.card.as_mut().map(|card| card.command(request, &mut buffer)) {
                    Some((0, count)) => count,
                    Some((number, _)) => usize::from(number),
                    None => 1,
                }
            }
            Event::PowerCycle => self.card.as_mut().map_or(1, |card| usize::from(card.power_cycle())),
            Event::TperReset => self.card.as_mut().map_or(1, |card| usize::from(card.tper_reset())),
            Event::Media { write, start, count } => {
                match self.card.as_ref().map_or(Ruling::Unsound, |card| card.media(*write, *start, *count)) {
                    Ruling::Disk => 0,
                    Ruling::Unsound => 1,
                    Ruling::Shadow => 2,
                    Ruling::Refused => 3,
                }
            }
        };
        if let Some(card) = &self.card {
            self.image = card.image();
        }
        Outcome { number, buffer, image: self.image.clone(), sound: self.sound() }
    }

    fn sound(&self) -> bool {
        self.card.as_ref().is_some_and(Card::sound)
    }
}

/// A promise that one program breaks by itself, in words.
fn broken(event: &Event, before: &[u8], outcome: &Outcome) -> Option<&'static str> {
    let untouched = filled(outcome.buffer.len());
    let kept = outcome.image == before;
    match event {
        Event::Command { .. } => match outcome.answer() {
            Some(answer) if outcome.buffer[answer.len()..] != untouched[answer.len()..] => {
                Some("wrote past the count of its answer")
            }
            Some(_) if !outcome.sound => Some("left an unsound record"),
            None if outcome.buffer != untouched => Some("refused and wrote into the answer buffer"),
            None if !kept => Some("refused and changed the image"),
            None if !(1..=6).contains(&outcome.number) => Some("gave a number that a request does not have"),
            _ => None,
        },
        Event::New { .. } if outcome.number != 0 && outcome.buffer != untouched => Some("refused and wrote a record"),
        Event::New { .. } if outcome.number == 0 && !outcome.sound => Some("made an unsound record"),
        Event::PowerCycle | Event::TperReset if outcome.number != 0 && !kept => Some("refused and changed the image"),
        Event::PowerCycle | Event::TperReset if outcome.number == 0 && !outcome.sound => Some("left an unsound record"),
        Event::Media { .. } if !kept => Some("changed the image at a question of the media"),
        _ => None,
    }
}

fn shown(event: &Event, outcome: &Outcome) -> String {
    let soundness = if outcome.sound { "sound" } else { "unsound" };
    let result = match outcome.answer() {
        Some(answer) => format!("answered {}", hex(answer)),
        None if matches!(event, Event::Media { .. }) => format!("ruling {}", outcome.number),
        None => format!("number {}", outcome.number),
    };
    format!("{result}; then {soundness}")
}

fn first_difference(one: &[u8], other: &[u8]) -> Option<usize> {
    (0..one.len().max(other.len())).find(|at| one.get(*at) != other.get(*at))
}

fn at_hex(image: &[u8], at: usize) -> String {
    image.get(at).map_or("none".into(), |byte| format!("{byte:02X}"))
}
