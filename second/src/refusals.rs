//! The numbers of refusal (01, Numbers of refusal).

pub const LENGTH: u32 = 1;
pub const BYTES: u32 = 2;
pub const NUMBER: u32 = 3;
pub const RANGE: u32 = 4;
pub const CHAIN: u32 = 5;
pub const WINDOW: u32 = 6;
pub const TOLERANCE: u32 = 7;
pub const NOWHERE: u32 = 8;
pub const ROOM: u32 = 9;
pub const ALLOWANCE: u32 = 10;
pub const HOLD: u32 = 11;
