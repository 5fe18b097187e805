//! The methods of an open session ("Who may do what").

use crate::access::{self, columns, Columns, Method, Object, Row};
use crate::cells::{changed_mbr, changed_range, flag, integer, pin, Cells};
use crate::record::{ranges_fit, Card, ADMIN1, SID};
use crate::session::{offer, optional, optional_bytes, Offer, Trial};
use crate::status::Status;
use crate::tokens::{Value, Values};
use crate::uid::Uid;

/// What the result list of a method that was done holds.
pub(crate) enum Reply {
    Nothing,
    Flag(bool),
    /// Get: the columns of the object, in an inner list.
    Cells(Object, Columns),
}

impl Card {
    /// A call in the open session, its checks in the order of "Checks:": row, shape and columns, who may, values, FAIL.
    /// Where it is refused nothing changes.
    pub(crate) fn invoke(&mut self, invoking: &Uid, method: &Uid, parameters: Values<'_>) -> Result<Reply, Status> {
        let locking = self.session.locking;
        let found = access::object(locking, invoking).zip(access::method(method));
        let (object, method) = found.ok_or(Status::NotAuthorized)?;
        let row = access::row(locking, object, method).ok_or(Status::NotAuthorized)?;
        match method {
            Method::Get => self.get(object, &row, parameters),
            Method::Set => self.set(object, &row, parameters),
            Method::Authenticate => self.authenticate(parameters),
            Method::Activate | Method::Revert | Method::RevertSp => self.change_life(object, method, &row, parameters),
        }
    }

    fn get(&self, object: Object, row: &Row, parameters: Values<'_>) -> Result<Reply, Status> {
        let asked = asked_columns(object, parameters).ok_or(Status::InvalidParameter)?;
        // "Get leaves out columns not allowed"; it never refuses for their sake.
        Ok(Reply::Cells(object, asked & self.allowed_columns(row)))
    }

    /// "Same order from the unknown authority on, but class, disabled and wrong answer SUCCESS with 0, right with 1."
    fn authenticate(&mut self, parameters: Values<'_>) -> Result<Reply, Status> {
        let offer = self.offered(parameters).ok_or(Status::InvalidParameter)?;
        match self.try_pin(&offer) {
            Trial::Unusable | Trial::Wrong => Ok(Reply::Flag(false)),
            Trial::LockedOut => Err(Status::AuthorityLockedOut),
            Trial::Right(proved) => {
                if let Some(row) = proved {
                    self.session.proved[row] = true;
                }
                Ok(Reply::Flag(true))
            }
        }
    }

    fn offered(&self, mut parameters: Values<'_>) -> Option<Offer> {
        let Value::Bytes(authority) = parameters.next()? else {
            return None;
        };
        let [proof] = optional(parameters, [0])?;
        offer(self.session.locking, authority, optional_bytes(proof)?)
    }

    /// Activate, Revert and RevertSP: they "take no parameters", and FAIL in a transaction comes last.
    fn change_life(
        &mut self,
        object: Object,
        method: Method,
        row: &Row,
        parameters: Values<'_>,
    ) -> Result<Reply, Status> {
        if !parameters.is_empty() {
            return Err(Status::InvalidParameter);
        }
        if !self.may(row) {
            return Err(Status::NotAuthorized);
        }
        if self.in_transaction {
            return Err(Status::Fail);
        }
        if method == Method::Activate {
            // "Again, it does nothing." It is no Set, so Admin1's Tries stay.
            if !self.tables.locking_active {
                self.tables.locking_active = true;
                self.pins[ADMIN1] = self.pins[SID];
            }
            return Ok(Reply::Nothing);
        }
        // "Locking Revert and RevertSP restore the Locking SP, Admin Revert both SPs."
        self.restore_locking();
        if object == Object::AdminSp {
            self.restore_admin();
        }
        // "Admin Revert and RevertSP also close the session"; a Locking Revert's goes on, for it is to the Admin SP.
        if object != Object::LockingSp {
            self.close_session();
        }
        Ok(Reply::Nothing)
    }

    fn set(&mut self, object: Object, row: &Row, parameters: Values<'_>) -> Result<Reply, Status> {
        let [values] = optional(parameters, [1]).ok_or(Status::InvalidParameter)?;
        let cells = match values {
            // Without name 1 it succeeds and changes nothing (003 5.3.3.7.2).
            None => return Ok(Reply::Nothing),
            Some(Value::List(list)) => Cells(list),
            Some(_) => return Err(Status::InvalidParameter),
        };
        let named = cells.columns(access::last_column(object)).ok_or(Status::InvalidParameter)?;
        if named & !self.allowed_columns(row) != 0 {
            return Err(Status::NotAuthorized);
        }
        self.store(object, cells).ok_or(Status::InvalidParameter)?;
        Ok(Reply::Nothing)
    }

    /// "Set is all or nothing, judged on the row as it would stand": where a value is wrong or the row would not stand,
    /// None, and nothing is stored. Only columns that an access row lets a host set are among the cells, none twice; so
    /// a PIN row, TPerInfo and an authority have one cell at most.
    fn store(&mut self, object: Object, cells: Cells<'_>) -> Option<()> {
        match object {
            Object::Pin(row) => {
                for (_, value) in cells {
                    self.pins[row] = pin(value)?;
                    // "Setting a PIN by Set sets its Tries to 0."
                    self.tries[row] = 0;
                }
            }
            Object::TperInfo => {
                for (_, value) in cells {
                    self.tables.reset_enabled = flag(value)?;
                }
            }
            Object::Authority(row) => {
                for (_, value) in cells {
                    self.tables.enabled[row] = flag(value)?;
                }
            }
            Object::MbrControl => self.tables.mbr = changed_mbr(self.tables.mbr, cells)?,
            Object::Range(row) => {
                let mut ranges = self.tables.ranges;
                ranges[row] = changed_range(ranges[row], cells)?;
                if !ranges_fit(&ranges, self.sectors) {
                    return None;
                }
                self.tables.ranges = ranges;
            }
            // No access row lets a host set these.
            Object::Msid | Object::AdminSp | Object::LockingSp | Object::ThisSp => (),
        }
        Some(())
    }
}

/// The columns a Get's cell block spans: None where the block is no such block, an end is
/// unknown or the start is above the end.
fn asked_columns(object: Object, parameters: Values<'_>) -> Option<Columns> {
    let Value::List(block) = parameters.only()? else {
        return None;
    };
    let [start, end] = optional(block, [3, 4])?;
    let last = access::last_column(object);
    // "Either left out meaning first or last": of the columns known, allowed or not.
    let start = start.map_or(Some(0), integer)?;
    let end = end.map_or(Some(last), integer)?;
    (start <= end && end <= last).then(|| columns(start, end))
}
