//! The simulator `pocket` beside the library: seeded histories as scripts through a pipe, every answer line held to what the
//! library says, and the next line sent only once the answer was read. It is `crates/pocket/out/pocket` of the repository's root,
//! or what the variable `POCKET` names. Where `POCKET` names none the tests fail; where none is named or built they say so and pass.

use std::collections::BTreeMap;
use std::env;
use std::io::{self, BufRead, BufReader, Write};
use std::path::PathBuf;
use std::process::{Child, ChildStdin, Command, Stdio};
use std::sync::mpsc::{self, Receiver};
use std::thread;
use std::time::Duration;

use compare::chance::Chance;
use compare::event::{hex, Event};
use compare::generator;
use compare::state::State;
use flamepocket::{Card, Verdict};

const PLACE: &str = "POCKET";
const SEEDS: [u64; 3] = [1, 2, 3];
const EVENTS_EACH: u64 = 3_000;
/// A line that takes longer is taken for one that is never answered.
const PATIENCE: Duration = Duration::from_secs(60);
/// The longest line that must be read.
const LINE_LIMIT: usize = 32_768;
const CARD: &str = "new 1000000 303132333435363738396162636465666768696a6b6c6d6e6f70717273747576";

/// The program at the other end of a pipe.
struct Pocket {
    child: Child,
    input: ChildStdin,
    answers: Receiver<String>,
}

impl Pocket {
    /// None, and a word on it, where the program is not built.
    fn start() -> Option<Pocket> {
        let built = PathBuf::from(env!("CARGO_MANIFEST_DIR")).join("../../crates/pocket/out/pocket");
        let named = env::var_os(PLACE).map(PathBuf::from);
        if named.is_none() && !built.is_file() {
            // Not by a macro: what those print is shown for failed tests only.
            let _ = writeln!(io::stderr(), "skipped: there is no {}", built.display());
            return None;
        }
        let program = named.unwrap_or(built);
        let mut child = Command::new(program).stdin(Stdio::piped()).stdout(Stdio::piped()).spawn().expect("it starts");
        let (input, output) = (child.stdin.take().expect("a pipe"), child.stdout.take().expect("a pipe"));
        let (sender, answers) = mpsc::channel();
        thread::spawn(move || {
            for answer in BufReader::new(output).lines() {
                if sender.send(answer.expect("text")).is_err() {
                    return;
                }
            }
        });
        Some(Pocket { child, input, answers })
    }

    /// Sends text as it is.
    fn write(&mut self, text: &str) {
        self.input.write_all(text.as_bytes()).and_then(|()| self.input.flush()).expect("it reads on");
    }

    fn answer(&self) -> String {
        self.answers.recv_timeout(PATIENCE).expect("an answer, as soon as the line is there")
    }

    fn ask(&mut self, line: &str) -> String {
        self.write(&format!("{line}\n"));
        self.answer()
    }

    /// Ends its input: it ends too, with nothing more to say.
    fn end(self) {
        let Pocket { mut child, input, answers } = self;
        drop(input);
        assert!(child.wait().expect("it ends").success());
        assert_eq!(answers.iter().collect::<Vec<_>>(), [""; 0]);
    }
}

/// What the simulator is to say, by the library.
#[derive(Default)]
struct Library {
    card: Option<Card>,
}

impl Library {
    fn answer(&mut self, event: &Event) -> String {
        let made = match event {
            Event::New { n, msid } => Card::factory(*n, msid),
            Event::Load(image) => Card::from_image(image),
            other => return self.card.as_mut().map_or("? no card".into(), |card| answered(card, other)),
        };
        // Where it is refused, the card in hand stays.
        let number = u8::from(made.is_err());
        self.card = made.ok().or(self.card.take());
        number.to_string()
    }

    fn image(&self) -> String {
        self.card.as_ref().map_or("? no card".into(), |card| hex(card.image()).to_lowercase())
    }
}

fn answered(card: &mut Card, event: &Event) -> String {
    let done = match event {
        Event::Command { room, request } => {
            let mut answer = vec![0; *room];
            return match card.command_in(request, &mut answer) {
                Ok(count) => format!("0 {}", hex(&answer[..count]).to_lowercase()),
                Err(refusal) => format!("{} -", refusal.number()),
            };
        }
        Event::Media { write, start, count } => {
            let ruling = if *write { card.write(*start, *count) } else { card.read(*start, *count) };
            return match ruling {
                Ok(Verdict::Disk) => "disk".into(),
                Ok(Verdict::Shadow) => "shadow".into(),
                Ok(Verdict::Refused) => "refused".into(),
                Err(refusal) => refusal.number().to_string(),
            };
        }
        Event::PowerCycle => card.power_cycle(),
        Event::TperReset => card.tper_reset(),
        Event::New { .. } | Event::Load(_) => unreachable!("these make another card"),
    };
    done.map_or_else(|refusal| refusal.number(), |()| 0).to_string()
}

/// Lines that cannot be read, card or not.
const UNREADABLE: [&str; 22] = [
    "off",
    "newer 1000000 00",
    "NEW 1000000 00",
    "new",
    "new 1000000",
    "new x 00",
    "new -1 00",
    "new 18446744073709551616 00",
    "new 1000000 0",
    "new 1000000 0g",
    "new 1000000 00 00",
    "cmd",
    "cmd 2048",
    "cmd 65537 -",
    "cmd 2048 abc",
    "cmd 2048 -- ",
    "power on",
    "reset 1",
    "read 0",
    "write 0 1 2",
    "image now",
    "load",
];

#[test]
fn histories() {
    let Some(mut pocket) = Pocket::start() else { return };
    let mut library = Library::default();
    let mut lines = BTreeMap::<String, u64>::new();
    let mut count = |line: &str| {
        *lines.entry(line.split(' ').next().unwrap_or_default().into()).or_default() += 1;
    };
    for seed in SEEDS {
        let mut chance = Chance::new(seed);
        for at in 0..EVENTS_EACH {
            // A new card now and then: a history ends.
            let step = match &library.card {
                Some(card) if at % 300 != 0 => generator::next(&mut chance, &State(card.image().to_vec()), true),
                _ => generator::new_card(&mut chance),
            };
            let mut line = step.event.to_string();
            if chance.one_in(2) {
                line = line.to_lowercase();
            }
            if chance.one_in(20) {
                pocket.write(chance.of(&["\n", "# a comment\n", "   \r\n", "  # new 5\n", "#\n"]));
            }
            assert_eq!(pocket.ask(&line), library.answer(&step.event), "{line}");
            count(&line);
            if chance.one_in(10) {
                let line = chance.of(&UNREADABLE);
                let answer = pocket.ask(line);
                assert!(answer.starts_with("? ") && answer.len() > 2, "{line}: {answer}");
                count("unreadable");
            }
            if chance.one_in(4) {
                assert_eq!(pocket.ask("image"), library.image());
                count("image");
            }
        }
    }
    pocket.end();
    println!("{lines:?}");
    assert!(lines.values().sum::<u64>() >= 5_000);
    for kind in ["new", "cmd", "power", "reset", "read", "write", "image", "load", "unreadable"] {
        assert!(lines.get(kind).is_some_and(|count| *count >= 20), "{kind}");
    }
}

#[test]
fn without_a_card() {
    let Some(mut pocket) = Pocket::start() else { return };
    let all = ["cmd 2048 -", "power", "reset", "read 0 1", "write 0 1", "image"];
    for line in all {
        assert_eq!(pocket.ask(line), "? no card", "{line}");
    }
    // A card that is refused is none.
    assert_eq!(pocket.ask(&CARD.replace("1000000", "262143")), "1");
    assert_eq!(pocket.ask("load 00"), "1");
    assert_eq!(pocket.ask("power"), "? no card");
    for line in UNREADABLE {
        assert!(pocket.ask(line).starts_with("? "), "{line}");
    }
    assert_eq!(pocket.ask(CARD), "0");
    let image = pocket.ask("image");
    assert_eq!(pocket.ask("power"), "0");
    // Of two cards refused neither is taken.
    assert_eq!(pocket.ask("load -"), "1");
    assert_eq!(pocket.ask("new 1000000 -"), "1");
    assert_eq!(pocket.ask("image"), image);
    assert_eq!(pocket.ask(&format!("load {image}")), "0");
    pocket.end();
}

#[test]
fn blanks_and_line_ends() {
    let Some(mut pocket) = Pocket::start() else { return };
    assert_eq!(pocket.ask(&format!("  {}  ", CARD.replace(' ', " \t "))), "0");
    assert_eq!(pocket.ask("read 00 000001\r"), "disk");
    assert_eq!(pocket.ask("write 18446744073709551615 18446744073709551615"), "refused");
    // Several lines at once.
    pocket.write("power\n\nread 0 1\n# nothing\nreset\n");
    assert_eq!([pocket.answer(), pocket.answer(), pocket.answer()], ["0", "disk", "7"]);
    // A line in pieces, and the last one without an end.
    pocket.write("po");
    pocket.write("wer\nreset");
    assert_eq!(pocket.answer(), "0");
    let Pocket { mut child, input, answers } = pocket;
    drop(input);
    assert_eq!(answers.iter().collect::<Vec<_>>(), ["7"]);
    assert!(child.wait().expect("it ends").success());
}

#[test]
fn long_lines() {
    let Some(mut pocket) = Pocket::start() else { return };
    assert_eq!(pocket.ask(CARD), "0");
    let image = pocket.ask("image");
    let request = |length: usize| {
        let head = "cmd 65536 ";
        format!("{head}{}", "0".repeat(length - head.len()))
    };
    // The longest that must be read is: its request has more than 2,048 bytes.
    assert_eq!(pocket.ask(&request(LINE_LIMIT)), "3 -");
    for length in [1_000_000, 1_000_001, 3_000_000] {
        let answer = pocket.ask(&request(length));
        assert!(answer.starts_with("? "), "{answer}");
        assert_eq!(pocket.ask("read 0 1"), "disk");
        // A remark has no answer, however long it is: the next one is the question's.
        pocket.write(&format!("#{}\n", request(length)));
        assert_eq!(pocket.ask("read 0 1"), "disk");
    }
    assert_eq!(pocket.ask("image"), image);
    pocket.end();
}
