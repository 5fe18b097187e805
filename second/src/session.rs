//! Starting a session and proving an authority ("Sessions and PINs").

use crate::access::{self, Authority};
use crate::record::{Card, Hsn, Pin, Session, Tsn, PIN_ROWS, TRY_LIMIT};
use crate::status::Status;
use crate::tokens::{Atom, Value, Values};
use crate::uid;

/// What became of a PIN that was offered.
pub(crate) enum Trial {
    /// A class, or disabled: no PIN proves it.
    Unusable,
    LockedOut,
    Wrong,
    /// Right; the row that is proved, if it is not Anybody.
    Right(Option<usize>),
}

/// A PIN of the right size that is offered for an authority the SP knows.
pub(crate) struct Offer {
    authority: Authority,
    pin: Pin,
}

/// Optional parameters: each a value named by one of `names`, which ascend, none twice.
/// None where anything else is among the rest.
pub(crate) fn optional<'a, const COUNT: usize>(
    rest: Values<'a>,
    names: [u64; COUNT],
) -> Option<[Option<Value<'a>>; COUNT]> {
    let mut found = [None; COUNT];
    let mut free = 0;
    for value in rest {
        let Value::Named(Atom::Integer(name), held) = value else {
            return None;
        };
        let at = free + names[free..].iter().position(|known| *known == name)?;
        found[at] = Some(held.only()?);
        free = at + 1;
    }
    Some(found)
}

/// The bytes of an optional parameter: Some(None) where it is left out, None where it is no bytes.
pub(crate) fn optional_bytes(value: Option<Value<'_>>) -> Option<Option<&[u8]>> {
    match value {
        None => Some(None),
        Some(Value::Bytes(bytes)) => Some(Some(bytes)),
        Some(_) => None,
    }
}

/// The checks of Authenticate and StartSession that end in 0C: unknown authority, PIN over 32 bytes.
/// An omitted PIN is an empty one.
pub(crate) fn offer(locking: bool, authority: &[u8], pin: Option<&[u8]>) -> Option<Offer> {
    Some(Offer { authority: access::authority(locking, authority)?, pin: Pin::new(pin.unwrap_or(&[]))? })
}

struct Start {
    hsn: Hsn,
    locking: bool,
    offer: Option<Offer>,
}

impl Card {
    /// The numbers of the session now open, or why there is none; the checks in the order of "Checks in order".
    pub(crate) fn start_session(&mut self, parameters: Values<'_>) -> Result<(Hsn, Tsn), Status> {
        if self.session.open {
            return Err(Status::NoSessionsAvailable);
        }
        let start = self.start(parameters).ok_or(Status::InvalidParameter)?;
        let mut proved = [false; PIN_ROWS];
        if let Some(offer) = start.offer {
            match self.try_pin(&offer) {
                Trial::Unusable | Trial::Wrong => return Err(Status::NotAuthorized),
                Trial::LockedOut => return Err(Status::AuthorityLockedOut),
                Trial::Right(Some(row)) => proved[row] = true,
                Trial::Right(None) => (),
            }
        }
        let tsn = self.next_tsn;
        // "TSNs run 1, 2, ..., FFFFFFFF, then 1"; a refused start has returned by now and uses none.
        self.next_tsn = Tsn(tsn.0.checked_add(1).unwrap_or(1));
        self.session = Session { open: true, locking: start.locking, tsn, hsn: start.hsn, proved };
        Ok((start.hsn, tsn))
    }

    /// Every check that ends in 0C; None where one fails.
    fn start(&self, mut parameters: Values<'_>) -> Option<Start> {
        let Value::Integer(hsn) = parameters.next()? else {
            return None;
        };
        let Value::Bytes(sp) = parameters.next()? else {
            return None;
        };
        let Value::Integer(1) = parameters.next()? else {
            return None;
        };
        let [challenge, authority] = optional(parameters, [0, 3])?;
        let challenge = optional_bytes(challenge)?;
        let authority = optional_bytes(authority)?;

        let locking = if sp == uid::ADMIN_SP {
            false
        } else if sp == uid::LOCKING_SP && self.tables.locking_active {
            true
        } else {
            return None;
        };
        let offer = match authority {
            Some(authority) => Some(offer(locking, authority, challenge)?),
            None if challenge.is_some() => return None,
            None => None,
        };
        Some(Start { hsn: Hsn(u32::try_from(hsn).ok()?), locking, offer })
    }

    /// "Class or disabled; Tries = 5; PIN differs, Tries + 1; equal, Tries 0." The caller marks the authority proved, for
    /// the session may not be open yet.
    pub(crate) fn try_pin(&mut self, offer: &Offer) -> Trial {
        let row = match offer.authority {
            Authority::Anybody => return Trial::Right(None),
            Authority::Class => return Trial::Unusable,
            Authority::One(row) => row,
        };
        if !self.tables.enabled[row] {
            Trial::Unusable
        } else if self.tries[row] >= TRY_LIMIT {
            Trial::LockedOut
        } else if self.pins[row] != offer.pin {
            self.tries[row] += 1;
            Trial::Wrong
        } else {
            self.tries[row] = 0;
            Trial::Right(Some(row))
        }
    }
}
