//! ComPackets, Packets and Subpackets. Every answer that [`Host`] reads is held to their layouts as well.

use crate::host::{call, hex, packet, uid, Host, HSN};
use crate::uids;

const NUMBER_ENVELOPE: usize = 4;
const NUMBER_SESSION: usize = 5;

fn start() -> Vec<u8> {
    call(uids::SESSION_MANAGER, uids::START_SESSION, &[vec![HSN as u8], uid(uids::ADMIN_SP), vec![1]].concat())
}

/// The number of a StartSession's request with bytes put over it at a place; 0 where it is answered.
fn number_with(at: usize, over: &[u8]) -> usize {
    let mut request = packet(0, 0, &start());
    request[at..at + over.len()].copy_from_slice(over);
    Host::new().request(request).err().unwrap_or(0)
}

/// 003 Table 17 (1546 to 1566): ComID at byte 4, ComID Extension at 6. 0x1000 is the first ComID of a session (003 2185, 000
/// Table 8, 562); the extension is 0x0000 (002 3.3.3, 000 3.3.3). The reserved and special ComIDs below it carry no packets.
#[test]
fn com_id() {
    assert_eq!(number_with(4, &hex("1000 0000")), 0);
    for com_id in ["0000", "0001", "0004", "07FF", "0800", "0FFF"] {
        assert_eq!(number_with(4, &hex(com_id)), NUMBER_ENVELOPE, "{com_id}");
    }
    // "The ComID Extension value of 0xFFFF is reserved" (003 2236).
    assert_eq!(number_with(6, &hex("FFFF")), NUMBER_ENVELOPE);
}

/// 003 3.2.3.2.1.1, 3.2.3.2.1.4, 3.2.3.2.1.5, 3.2.3.3.1.3 and 3.2.3.4.1.1.1: reserved fields, OutstandingData and MinTransfer are
/// ignored; 002 3.3.4.1.2: so are sequence numbers, AckType (0x0001, 0x0002) and acknowledgements. The answer has zeros.
#[test]
fn ignored_fields() {
    let plain = Host::new().request(packet(0, 0, &start()));
    for (at, over) in [
        (0, "FF FF FF FF"),
        (8, "00 00 00 01"),
        (12, "00 00 08 00"),
        (20 + 8, "00 00 00 01"),
        (20 + 12, "FF FF"),
        (20 + 14, "00 01"),
        (20 + 14, "00 02"),
        (20 + 16, "00 00 00 07"),
        (44, "FF FF FF FF FF FF"),
    ] {
        let mut request = packet(0, 0, &start());
        let over = hex(over);
        request[at..at + over.len()].copy_from_slice(&over);
        assert_eq!(Host::new().request(request), plain, "byte {at}");
    }
}

/// 003 Table 19 (1708, 1709): a data subpacket's Kind is 0x0000. A Credit Control Subpacket, 0x8001, is none that document 01
/// reads.
#[test]
fn kinds() {
    assert_eq!(number_with(44 + 6, &hex("0000")), 0);
    assert_eq!(number_with(44 + 6, &hex("8001")), NUMBER_ENVELOPE);
}

/// 003 Table 18: "0-3 = TSN, 4-7 = HSN".
#[test]
fn session_numbers() {
    let mut host = Host::sid();
    let (tsn, hsn) = host.session;
    assert_ne!(tsn, hsn);
    assert_eq!(host.request(packet(hsn, tsn, &[0xFA])), Err(NUMBER_SESSION));
    assert_eq!(host.request(packet(tsn, hsn, &[0xFA])), Ok(packet(tsn, hsn, &[0xFA])));
}

/// 003 3.2.3.4.1.2.2: "the number of pad bytes SHALL be (-Subpacket.Length modulo 4)"; 3.2.3.4.1.1.3: the Subpacket's Length does
/// not count them, and the lengths around it do.
#[test]
fn pad() {
    for empties in 0..4 {
        let payload = [start(), vec![0xFF; empties]].concat();
        let request = packet(0, 0, &payload);
        assert!(Host::new().request(request.clone()).is_ok());
        // A word more or less of pad: by the lengths around the Subpacket, or by its own.
        for fields in [&[16][..], &[40], &[16, 40], &[52]] {
            for by in [4, 4u8.wrapping_neg()] {
                let mut other = [&request[..], &[0; 4]].concat();
                fields.iter().for_each(|at| other[at + 3] = other[at + 3].wrapping_add(by));
                assert_eq!(Host::new().request(other), Err(NUMBER_ENVELOPE), "{empties} {fields:?} {by}");
            }
        }
    }
}

/// 002 Table 8, 000 Table 11: MaxComPacketSize 2048, MaxPacketSize 2028, MaxIndTokenSize 1992.
#[test]
fn sizes() {
    let payload = |size: usize| [start(), vec![0xFF; size - start().len()]].concat();
    let largest = packet(0, 0, &payload(1992));
    assert_eq!((largest.len(), largest.len() - 20), (2048, 2028));
    assert!(Host::new().request(largest).is_ok());
    assert_eq!(Host::new().request(packet(0, 0, &payload(1993))), Err(3));
}

/// 002 Table 8, 000 Table 11: MaxSessions 1, MaxTransactionLimit 1.
#[test]
fn one_session_one_transaction() {
    let mut host = Host::sid();
    let session = host.session;
    assert_eq!(host.start(uids::ADMIN_SP, None, None), 0x07);
    host.session = session;
    assert_eq!(host.send(&[0xFB, 0x00]), [0xFB, 0x00]);
    assert_eq!(host.send(&[0xFB, 0x00]), [0xFB, 0x01]);
}
