//! What a payload asks for ("A payload is one of").

use crate::tokens::{Reader, Token, Values, DEPTH_LIMIT};
use crate::uid::Uid;

pub(crate) enum Payload<'a> {
    Call { invoking: Uid, method: Uid, parameters: Values<'a> },
    EndOfSession,
    Begin,
    Commit,
    Abandon,
}

/// None where the payload is broken anywhere, be it only in its last token.
pub(crate) fn read(bytes: &[u8]) -> Option<Payload<'_>> {
    let mut reader = Reader::new(bytes);
    let payload = match reader.token()? {
        Token::Call => call(&mut reader)?,
        Token::EndOfSession => Payload::EndOfSession,
        Token::StartTransaction => match reader.token()? {
            Token::Integer(0) => Payload::Begin,
            _ => return None,
        },
        Token::EndTransaction => match reader.token()? {
            Token::Integer(0) => Payload::Commit,
            Token::Integer(1) => Payload::Abandon,
            _ => return None,
        },
        _ => return None,
    };
    // "Nothing may follow"; FF is skipped after any token.
    reader.at_end().then_some(payload)
}

fn call<'a>(reader: &mut Reader<'a>) -> Option<Payload<'a>> {
    let invoking = uid(reader)?;
    let method = uid(reader)?;
    reader.expect(Token::StartList)?;
    let parameters = reader.rest_of_list(DEPTH_LIMIT)?;
    reader.expect(Token::EndOfData)?;
    reader.expect(Token::StartList)?;
    for _ in 0..3 {
        reader.expect(Token::Integer(0))?;
    }
    reader.expect(Token::EndList)?;
    Some(Payload::Call { invoking, method, parameters })
}

fn uid(reader: &mut Reader<'_>) -> Option<Uid> {
    match reader.token()? {
        Token::Bytes(bytes) => bytes.try_into().ok(),
        _ => None,
    }
}
