//! Payloads at the borders of the grammar, each with what it is.

use crate::Payload;

pub struct Border {
    pub name: String,
    pub bytes: Vec<u8>,
    pub payload: Option<Payload>,
}

const OBJECT: u64 = 0x0102_0304_0506_0708;
const METHOD: u64 = 0x1112_1314_1516_1718;
/// F9 and the status list.
const TAIL: [u8; 6] = [0xF9, 0xF0, 0x00, 0x00, 0x00, 0xF1];
/// Where the values of a call start whose UIDs are in the shortest form.
const VALUES_AT: usize = 20;

pub fn all() -> Vec<Border> {
    let parts = [controls(), first_bytes(), sizes(), nesting(), names(), frames(), empty_tokens()];
    parts.into_iter().flatten().collect()
}

fn border(name: impl Into<String>, bytes: impl Into<Vec<u8>>, payload: Option<Payload>) -> Border {
    Border { name: name.into(), bytes: bytes.into(), payload }
}

/// A call whose list holds `values`, whole or broken as a whole.
fn holding(name: impl Into<String>, values: &[u8], whole: bool) -> Border {
    border(name, [&head(), values, &[0xF1], &TAIL].concat(), whole.then(|| call_at(VALUES_AT)))
}

fn call_at(parameters: usize) -> Payload {
    Payload::Call { object: OBJECT, method: METHOD, parameters }
}

/// A call up to its first value.
fn head() -> Vec<u8> {
    [&[0xF8, 0xA8], &OBJECT.to_be_bytes()[..], &[0xA8], &METHOD.to_be_bytes(), &[0xF0]].concat()
}

fn controls() -> Vec<Border> {
    use Payload::{Abandon, Begin, Commit, EndSession};
    let rows: [(&str, &[u8], Option<Payload>); 19] = [
        ("nothing", &[], None),
        ("FF alone", &[0xFF, 0xFF], None),
        ("end of session", &[0xFA], Some(EndSession)),
        ("end of session twice", &[0xFA, 0xFA], None),
        ("end of session and an atom", &[0xFA, 0x00], None),
        ("begin", &[0xFB, 0x00], Some(Begin)),
        ("begin by 1", &[0xFB, 0x01], None),
        ("begin by nothing", &[0xFB], None),
        ("begin by an empty string", &[0xFB, 0xA0], None),
        ("begin by a short 0", &[0xFB, 0x81, 0x00], Some(Begin)),
        ("begin by a long 0", &[0xFB, 0xE0, 0x00, 0x00, 0x02, 0x00, 0x00], Some(Begin)),
        ("commit", &[0xFC, 0x00], Some(Commit)),
        ("abandon", &[0xFC, 0x01], Some(Abandon)),
        ("abandon by a medium 1", &[0xFC, 0xC0, 0x02, 0x00, 0x01], Some(Abandon)),
        ("end of transaction by 2", &[0xFC, 0x02], None),
        ("end of transaction by 256", &[0xFC, 0x82, 0x01, 0x00], None),
        ("end of transaction by nothing", &[0xFC], None),
        ("end of transaction by a string", &[0xFC, 0xA1, 0x01], None),
        ("commit and an atom", &[0xFC, 0x00, 0x00], None),
    ];
    rows.into_iter().map(|(name, bytes, payload)| border(name, bytes, payload)).collect()
}

/// Every byte as the first of a value, with nothing of its own behind it and with twenty zeros.
fn first_bytes() -> Vec<Border> {
    let alone = |lead| holding(format!("{lead:02X} alone"), &[lead], matches!(lead, 0x00..=0x3F | 0xA0 | 0xFF));
    let before_zeros = |lead| {
        // 40-7F and whatever has S set are broken. C0, C1 and E0 say 0 or 256 bytes and more, and so does D1, of which there are too few.
        let whole = matches!(lead, 0x00..=0x3F | 0x81..=0x88 | 0xA0..=0xAF | 0xD0 | 0xE2 | 0xFF);
        holding(format!("{lead:02X} before zeros"), &[&[lead][..], &[0; 20]].concat(), whole)
    };
    (0..=0xFF).map(alone).chain((0..=0xFF).map(before_zeros)).collect()
}

/// Integers and strings of each size in each form, S clear and set.
fn sizes() -> Vec<Border> {
    let mut borders = vec![];
    for form in [Form::Short, Form::Medium, Form::Long] {
        for size in [0, 1, 7, 8, 9, 15, 16, 255, 256, 2047, 2048].into_iter().filter(|size| form.has(*size)) {
            for (string, signed) in [(false, false), (true, false), (false, true), (true, true)] {
                let start = form.start(size, string, signed);
                let whole = !signed && (string || (1..=8).contains(&size));
                let name = format!("{start:02X?} and {size} bytes");
                borders.push(border(format!("{name}, not there"), [&head(), &start[..]].concat(), None));
                borders.push(holding(name, &[&start[..], &vec![0; size]].concat(), whole));
            }
        }
    }
    borders
}

#[derive(Clone, Copy)]
enum Form {
    Short,
    Medium,
    Long,
}

impl Form {
    fn has(self, size: usize) -> bool {
        match self {
            Form::Short => size < 0x10,
            Form::Medium => size < 0x800,
            Form::Long => size < 0x100_0000,
        }
    }

    /// An atom up to its contents: 10BSnnnn, 110BSnnn and a byte, 111000BS and three.
    fn start(self, size: usize, string: bool, signed: bool) -> Vec<u8> {
        let [.., high, middle, low] = size.to_be_bytes();
        let kind = u8::from(string) << 1 | u8::from(signed);
        match self {
            Form::Short => vec![0x80 | kind << 4 | low],
            Form::Medium => vec![0xC0 | kind << 3 | middle, low],
            Form::Long => vec![0xE0 | kind, high, middle, low],
        }
    }
}

/// A call's list is the first of 16, so 15 more may be open in it.
fn nesting() -> Vec<Border> {
    let lists = |count| [vec![0xF0; count], vec![0xF1; count]].concat();
    let named = |count| [[0xF2, 0x01].repeat(count), vec![0x01], vec![0xF3; count]].concat();
    let by_turns = |count| [[0xF0, 0xF2, 0x01].repeat(count), vec![0x01], [0xF3, 0xF1].repeat(count)].concat();
    vec![
        holding("lists to depth 16", &lists(15), true),
        holding("lists to depth 17", &lists(16), false),
        holding("names to depth 16", &named(15), true),
        holding("names to depth 17", &named(16), false),
        holding("lists and names to depth 15", &by_turns(7), true),
        holding("lists and names to depth 16", &[&[0xF0][..], &by_turns(7), &[0xF1]].concat(), true),
        holding("lists and names to depth 17", &by_turns(8), false),
        holding("lists to depth 16, twice", &lists(15).repeat(2), true),
        holding("a list that does not end", &[0xF0], false),
        holding("a list that ends twice", &[0xF0, 0xF1, 0xF1], false),
    ]
}

fn names() -> Vec<Border> {
    let rows: [(&str, &[u8], bool); 10] = [
        ("a name", &[0xF2, 0x01, 0x02, 0xF3], true),
        ("a name of bytes", &[0xF2, 0xA1, 0x05, 0x02, 0xF3], true),
        ("a list with a name", &[0xF2, 0x01, 0xF0, 0xF1, 0xF3], true),
        ("a name without a value", &[0xF2, 0x01, 0xF3], false),
        ("a name with two values", &[0xF2, 0x01, 0x02, 0x03, 0xF3], false),
        ("a list for a name", &[0xF2, 0xF0, 0xF1, 0x02, 0xF3], false),
        ("a name ended as a list", &[0xF2, 0x01, 0x02, 0xF1], false),
        ("a list ended as a name", &[0xF0, 0x01, 0xF3], false),
        ("a name's end alone", &[0xF3], false),
        ("a name that does not end", &[0xF2, 0x01, 0x02], false),
    ];
    rows.into_iter().map(|(name, values, whole)| holding(name, values, whole)).collect()
}

/// What stands around a call's list.
fn frames() -> Vec<Border> {
    let method = [&[0xA8][..], &METHOD.to_be_bytes()].concat();
    let object = OBJECT.to_be_bytes();
    let by_object = |name: &str, token: &[u8], parameters: Option<usize>| {
        let bytes = [&[0xF8], token, &method, &[0xF0, 0xF1], &TAIL].concat();
        border(name, bytes, parameters.map(call_at))
    };
    let by_tail = |name: &str, tail: &[u8], whole: bool| {
        border(name, [&head(), &[0xF1][..], tail].concat(), whole.then(|| call_at(VALUES_AT)))
    };
    let mut borders = vec![
        by_object("a UID", &[&[0xA8], &object[..]].concat(), Some(VALUES_AT)),
        by_object("a UID in the medium form", &[&[0xD0, 0x08], &object[..]].concat(), Some(VALUES_AT + 1)),
        by_object("a UID in the long form", &[&[0xE2, 0x00, 0x00, 0x08], &object[..]].concat(), Some(VALUES_AT + 3)),
        by_object("a UID of seven bytes", &[&[0xA7], &object[1..]].concat(), None),
        by_object("a UID of nine bytes", &[&[0xA9, 0x00], &object[..]].concat(), None),
        by_object("an integer for a UID", &[&[0x88], &object[..]].concat(), None),
        by_tail("no parameters", &TAIL, true),
        by_tail("a status in longer forms", &[0xF9, 0xF0, 0x81, 0, 0xC0, 0x01, 0, 0xE0, 0, 0, 0x01, 0, 0xF1], true),
        by_tail("no end of data", &TAIL[1..], false),
        by_tail("two numbers of status", &[0xF9, 0xF0, 0x00, 0x00, 0xF1], false),
        by_tail("four numbers of status", &[0xF9, 0xF0, 0x00, 0x00, 0x00, 0x00, 0xF1], false),
        by_tail("a status that is a string", &[0xF9, 0xF0, 0x00, 0xA0, 0x00, 0xF1], false),
    ];
    for place in 2..5 {
        let mut tail = TAIL;
        tail[place] = 0x01;
        borders.push(by_tail(&format!("1 as number {} of the status", place - 1), &tail, false));
    }
    for cut in 0..TAIL.len() {
        borders.push(by_tail(&format!("{cut} bytes after the list"), &TAIL[..cut], false));
    }
    for surplus in [0x00, 0x40, 0xF1, 0xF8, 0xF9, 0xFA] {
        borders.push(by_tail(&format!("{surplus:02X} after the end"), &[&TAIL[..], &[surplus]].concat(), false));
    }
    borders.push(by_tail("FF after the end", &[&TAIL[..], &[0xFF, 0xFF]].concat(), true));
    borders.push(by_tail("FF and an atom after the end", &[&TAIL[..], &[0xFF, 0x00]].concat(), false));
    borders
}

/// FF before and after every token, and inside one.
fn empty_tokens() -> Vec<Border> {
    let values: [&[u8]; 6] = [&[0xF2], &[0x01], &[0x82, 0xFF, 0xFF], &[0xF3], &[0xA0], &[0xD0, 0x01, 0xFF]];
    let object = [&[0xA8], &OBJECT.to_be_bytes()[..]].concat();
    let method = [&[0xA8], &METHOD.to_be_bytes()[..]].concat();
    let mut tokens: Vec<&[u8]> = vec![&[0xF8], &object, &method, &[0xF0]];
    tokens.extend(values);
    tokens.push(&[0xF1]);
    tokens.extend(TAIL.chunks(1));
    let spread = tokens.iter().fold(vec![0xFF], |bytes, token| [&bytes[..], token, &[0xFF]].concat());
    vec![
        // Four FF stand before the end of F0: one before each token up to it.
        border("FF everywhere", spread, Some(call_at(VALUES_AT + 4))),
        border("FF around a begin", [0xFF, 0xFB, 0xFF, 0xFF, 0x00, 0xFF], Some(Payload::Begin)),
        border("FF around an end of session", [0xFF, 0xFA, 0xFF], Some(Payload::EndSession)),
        holding("FF as a length", &[0xD0, 0xFF], false),
        holding("FF in a long length", &[0xE2, 0xFF, 0x00, 0x00], false),
    ]
}
