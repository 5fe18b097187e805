//! UIDs of SPs, objects, authorities and methods ("Which paper decides").

pub type Uid = [u8; 8];

/// The session manager, which StartSession is invoked on and which SyncSession and CloseSession come from.
pub const SESSION_MANAGER: Uid = [0, 0, 0, 0, 0, 0, 0, 0xFF];
pub const START_SESSION: Uid = [0, 0, 0, 0, 0, 0, 0xFF, 0x02];
pub const SYNC_SESSION: Uid = [0, 0, 0, 0, 0, 0, 0xFF, 0x03];
pub const CLOSE_SESSION: Uid = [0, 0, 0, 0, 0, 0, 0xFF, 0x06];

pub const GET: Uid = [0, 0, 0, 6, 0, 0, 0, 0x16];
pub const SET: Uid = [0, 0, 0, 6, 0, 0, 0, 0x17];
pub const AUTHENTICATE: Uid = [0, 0, 0, 6, 0, 0, 0, 0x1C];
pub const REVERT_SP: Uid = [0, 0, 0, 6, 0, 0, 0, 0x11];
pub const REVERT: Uid = [0, 0, 0, 6, 0, 0, 2, 2];
pub const ACTIVATE: Uid = [0, 0, 0, 6, 0, 0, 2, 3];

pub const THIS_SP: Uid = [0, 0, 0, 0, 0, 0, 0, 1];
/// The SPs' UIDs are at once the UIDs of their rows in the Admin SP's table of SPs.
pub const ADMIN_SP: Uid = [0, 0, 2, 5, 0, 0, 0, 1];
pub const LOCKING_SP: Uid = [0, 0, 2, 5, 0, 0, 0, 2];

pub const ANYBODY: Uid = [0, 0, 0, 9, 0, 0, 0, 1];
pub const ADMINS: Uid = [0, 0, 0, 9, 0, 0, 0, 2];
pub const SID: Uid = [0, 0, 0, 9, 0, 0, 0, 6];
pub const USERS: Uid = [0, 0, 0, 9, 0, 3, 0, 0];

pub const C_PIN_SID: Uid = [0, 0, 0, 0x0B, 0, 0, 0, 1];
pub const C_PIN_MSID: Uid = [0, 0, 0, 0x0B, 0, 0, 0x84, 2];
pub const TPER_INFO: Uid = [0, 0, 2, 1, 0, 3, 0, 1];
pub const GLOBAL_RANGE: Uid = [0, 0, 8, 2, 0, 0, 0, 1];
pub const MBR_CONTROL: Uid = [0, 0, 8, 3, 0, 0, 0, 1];

/// Authority Admin k, 1 to 4.
pub const fn admin(k: u8) -> Uid {
    [0, 0, 0, 9, 0, 1, 0, k]
}

/// Authority User k, 1 to 8.
pub const fn user(k: u8) -> Uid {
    [0, 0, 0, 9, 0, 3, 0, k]
}

/// The PIN row of Admin k.
pub const fn c_pin_admin(k: u8) -> Uid {
    [0, 0, 0, 0x0B, 0, 1, 0, k]
}

/// The PIN row of User k.
pub const fn c_pin_user(k: u8) -> Uid {
    [0, 0, 0, 0x0B, 0, 3, 0, k]
}

/// Range k, 1 to 4; the global one is [`GLOBAL_RANGE`].
pub const fn range(k: u8) -> Uid {
    [0, 0, 8, 2, 0, 3, 0, k]
}
