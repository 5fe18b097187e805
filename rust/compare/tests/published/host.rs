//! A host that speaks to both programs at once. Its requests are built from the layouts that the sources print, not by
//! the second program's builders.

use compare::event::{unhex, Event};
use compare::sides::{Outcome, Pair};

use crate::uids;

pub const SECTORS: u64 = 1_000_000;
pub const MSID: [u8; 32] = *b"0123456789abcdefghijklmnopqrstuv";
/// Small enough to be a tiny atom.
pub const HSN: u32 = 41;
const ROOM: usize = 2048;
const HEADERS: usize = 20 + 24 + 12;

/// Bytes as the sources print them.
pub fn hex(printed: &str) -> Vec<u8> {
    unhex(&printed.replace(' ', "")).expect("hex digits")
}

/// A UID as a bytes token: a short atom of 8 bytes (003 Table 07).
pub fn uid(printed: &str) -> Vec<u8> {
    [&[0xA8][..], &hex(printed)].concat()
}

/// A bytes token: a short atom up to 15 bytes, a medium one up to 2,047 (003 Tables 07 and 10).
pub fn bytes(content: &[u8]) -> Vec<u8> {
    let [.., high, low] = content.len().to_be_bytes();
    let head = if content.len() < 0x10 { vec![0xA0 | low] } else { vec![0xD0 | high, low] };
    [&head, content].concat()
}

/// A list (003 3.2.2.3.2.2).
pub fn list(held: &[u8]) -> Vec<u8> {
    [&[0xF0][..], held, &[0xF1]].concat()
}

/// A named value (003 3.2.2.3.2.1), its name a tiny atom.
pub fn named(name: u8, value: &[u8]) -> Vec<u8> {
    [&[0xF2, name][..], value, &[0xF3]].concat()
}

/// A method invocation (003 3.2.4.2).
pub fn call(invoking: &str, method: &str, parameters: &[u8]) -> Vec<u8> {
    [&[0xF8][..], &uid(invoking), &uid(method), &list(parameters), &[0xF9], &list(&[0, 0, 0])].concat()
}

/// A cell block from one column to another (003 5.1.4.2.3: startColumn is name 3, endColumn name 4).
pub fn block(start: u8, end: u8) -> Vec<u8> {
    list(&[named(3, &[start]), named(4, &[end])].concat())
}

/// ComPacket, Packet and data Subpacket around a payload (003 Tables 17, 18 and 20).
pub fn packet(tsn: u32, hsn: u32, payload: &[u8]) -> Vec<u8> {
    let size = |part: &[u8]| (part.len() as u32).to_be_bytes();
    // "The number of pad bytes SHALL be (-Subpacket.Length modulo 4)."
    let pad = [0; 3][..payload.len().wrapping_neg() % 4].to_vec();
    let subpacket = [&[0; 8][..], &size(payload), payload, &pad].concat();
    let packet = [&tsn.to_be_bytes()[..], &hsn.to_be_bytes(), &[0; 12], &size(&subpacket), &subpacket].concat();
    [&[0, 0, 0, 0, 0x10, 0x00, 0x00, 0x00][..], &[0; 8], &size(&packet), &packet].concat()
}

/// The response to a method: what stands before its end of data, and its status.
#[derive(Clone, PartialEq, Eq, Debug)]
pub struct Reply {
    pub result: Vec<u8>,
    pub status: u8,
}

impl Reply {
    /// `payload` ends in F9 F0 status 00 00 F1.
    fn new(payload: &[u8]) -> Reply {
        match payload {
            [result @ .., 0xF9, 0xF0, status, 0, 0, 0xF1] => Reply { result: result.to_vec(), status: *status },
            _ => panic!("no response to a method: {payload:02X?}"),
        }
    }
}

#[derive(Clone)]
pub struct Host {
    pair: Pair,
    /// TSN and HSN that requests go to.
    pub session: (u32, u32),
}

impl Host {
    /// With a card as made.
    pub fn new() -> Host {
        let mut host = Host { pair: Pair::new(), session: (0, 0) };
        assert_eq!(host.apply(&Event::New { n: SECTORS, msid: MSID.to_vec() }).number, 0);
        host
    }

    /// In a session of SID's.
    pub fn sid() -> Host {
        let mut host = Host::new();
        assert_eq!(host.start(uids::ADMIN_SP, Some(uids::SID), Some(&MSID)), 0);
        host
    }

    /// With the Locking SP active, in a session of Admin1's, whose PIN is the MSID too.
    pub fn admin1() -> Host {
        let mut host = Host::sid();
        assert_eq!(host.call(uids::LOCKING_SP, uids::ACTIVATE, &[]).status, 0);
        host.end();
        assert_eq!(host.start(uids::LOCKING_SP, Some(uids::ADMIN1), Some(&MSID)), 0);
        host
    }

    /// What both programs show after an event. Where they differ the test fails.
    pub fn apply(&mut self, event: &Event) -> Outcome {
        self.pair.apply(event).unwrap_or_else(|words| panic!("{event}\n{words}"))
    }

    /// A whole request and the whole answer, or the number.
    pub fn request(&mut self, request: Vec<u8>) -> Result<Vec<u8>, usize> {
        let outcome = self.apply(&Event::Command { room: ROOM, request });
        outcome.answer().map(<[u8]>::to_vec).ok_or(outcome.number)
    }

    /// A payload to the session, or on 0, 0, and the answer's payload with its TSN and HSN. Every byte around the payload
    /// is held to the printed layouts.
    pub fn send_raw(&mut self, payload: &[u8]) -> Result<((u32, u32), Vec<u8>), usize> {
        let (tsn, hsn) = self.session;
        let answer = self.request(packet(tsn, hsn, payload))?;
        let word = |at: usize| u32::from_be_bytes([answer[at], answer[at + 1], answer[at + 2], answer[at + 3]]);
        let payload = answer[HEADERS..HEADERS + word(52) as usize].to_vec();
        let session = (word(20), word(24));
        assert_eq!(answer, packet(session.0, session.1, &payload));
        Ok((session, payload))
    }

    /// The same, where the answer goes to where the request came from.
    pub fn send(&mut self, payload: &[u8]) -> Vec<u8> {
        let (session, answer) = self.send_raw(payload).expect("an answer");
        assert_eq!(session, self.session);
        answer
    }

    pub fn call(&mut self, invoking: &str, method: &str, parameters: &[u8]) -> Reply {
        Reply::new(&self.send(&call(invoking, method, parameters)))
    }

    /// StartSession with its parameters as they are, on 0, 0.
    pub fn start_with(&mut self, parameters: &[u8]) -> Reply {
        self.session = (0, 0);
        self.call(uids::SESSION_MANAGER, uids::START_SESSION, parameters)
    }

    /// StartSession; the status. HostChallenge is name 0, HostSigningAuthority name 3 (003 5.2.3.1).
    pub fn start(&mut self, sp: &str, authority: Option<&str>, challenge: Option<&[u8]>) -> u8 {
        let challenge = challenge.map_or(vec![], |pin| named(0, &bytes(pin)));
        let authority = authority.map_or(vec![], |authority| named(3, &uid(authority)));
        let reply = self.start_with(&[vec![HSN as u8], uid(sp), vec![1], challenge, authority].concat());
        if reply.status == 0 {
            // The TSN is small enough to be a tiny atom, the last of the SyncSession's list.
            let tsn = reply.result[reply.result.len() - 2];
            self.session = (u32::from(tsn), HSN);
        }
        reply.status
    }

    /// End of session.
    pub fn end(&mut self) {
        assert_eq!(self.send(&[0xFA]), [0xFA]);
        self.session = (0, 0);
    }

    pub fn get(&mut self, object: &str, start: u8, end: u8) -> Reply {
        self.call(object, uids::GET, &block(start, end))
    }

    /// The value of one column as tokens; none where the Get leaves the column out.
    pub fn cell(&mut self, object: &str, column: u8) -> Vec<u8> {
        let reply = self.get(object, column, column);
        assert_eq!(reply.status, 0);
        match &reply.result[..] {
            [0xF0, 0xF0, 0xF1, 0xF1] => vec![],
            [0xF0, 0xF0, 0xF2, number, value @ .., 0xF3, 0xF1, 0xF1] if *number == column => value.to_vec(),
            other => panic!("no row of column {column}: {other:02X?}"),
        }
    }

    /// Set of columns given as named values (003 5.3.3.7: Values is name 1); the status.
    pub fn set(&mut self, object: &str, columns: &[u8]) -> u8 {
        self.call(object, uids::SET, &named(1, &list(columns))).status
    }

    /// Whether a broken payload was seen: the session is closed by CloseSession [HSN, TSN] on 0, 0.
    pub fn is_closed_by(&mut self, payload: &[u8]) -> bool {
        let (session, answer) = self.send_raw(payload).expect("an answer");
        let (tsn, hsn) = self.session;
        session == (0, 0)
            && answer == call(uids::SESSION_MANAGER, uids::CLOSE_SESSION, &[hsn as u8, tsn as u8])
            && self.request(packet(tsn, hsn, &[0xFA])) == Err(5)
    }
}
