//! Status codes of an answered call ("Statuses").

#[derive(Clone, Copy, PartialEq, Eq, Debug)]
pub(crate) enum Status {
    Success = 0x00,
    NotAuthorized = 0x01,
    NoSessionsAvailable = 0x07,
    InvalidParameter = 0x0C,
    AuthorityLockedOut = 0x12,
    Fail = 0x3F,
}
