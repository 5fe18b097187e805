//! ComPacket, Packet and Subpacket around a payload ("Envelope").

use crate::record::{Hsn, Tsn};

pub(crate) const HEADERS: usize = 20 + 24 + 12;
pub(crate) const COM_ID: [u8; 2] = [0x10, 0x00];

pub(crate) struct Envelope<'a> {
    pub tsn: Tsn,
    pub hsn: Hsn,
    pub payload: &'a [u8],
}

/// Pad bytes after a payload of this length, up to a multiple of 4.
pub(crate) fn pad(payload: u64) -> u64 {
    (4 - payload % 4) % 4
}

/// None where the envelope is broken.
pub(crate) fn read(request: &[u8]) -> Option<Envelope<'_>> {
    let headers = request.get(..HEADERS)?;
    let word = |at: usize| u32::from_be_bytes([headers[at], headers[at + 1], headers[at + 2], headers[at + 3]]);
    let com_packet_length = u64::from(word(16));
    let packet_length = u64::from(word(40));
    let payload_length = u64::from(word(52));

    let sound = headers[4..6] == COM_ID
        && headers[6..8] == [0, 0]
        && headers[50..52] == [0, 0]
        && payload_length >= 1
        && packet_length == 12 + payload_length + pad(payload_length)
        && com_packet_length == 24 + packet_length
        && 20 + com_packet_length <= request.len() as u64;
    if !sound {
        return None;
    }
    let payload = request.get(HEADERS..HEADERS + payload_length as usize)?;
    Some(Envelope { tsn: Tsn(word(20)), hsn: Hsn(word(24)), payload })
}

/// The headers of a payload of this length; all that has no other value is zero.
pub(crate) fn headers(tsn: Tsn, hsn: Hsn, payload: u32) -> [u8; HEADERS] {
    let packet = 12 + payload + pad(u64::from(payload)) as u32;
    let mut headers = [0; HEADERS];
    headers[4..6].copy_from_slice(&COM_ID);
    headers[16..20].copy_from_slice(&(24 + packet).to_be_bytes());
    headers[20..24].copy_from_slice(&tsn.0.to_be_bytes());
    headers[24..28].copy_from_slice(&hsn.0.to_be_bytes());
    headers[40..44].copy_from_slice(&packet.to_be_bytes());
    headers[52..56].copy_from_slice(&payload.to_be_bytes());
    headers
}
