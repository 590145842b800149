//! The outcomes and codes by their numbers, and how one of the eight calls ends.

// The outcomes.
pub const HANDLED: u32 = 0;
pub const NO_CALL: u32 = 1;
pub const GONE: u32 = 2;
pub const BAD_MACHINE: u32 = 3;

// The codes.
pub const SUCCESS: u32 = 0;
pub const ONE_MORE_PAGE: u32 = 0x4000_0001;
pub const INCOMPLETE: u32 = 0x8000_0000;
pub const PROTOCOL_NOT_KNOWN: u32 = 0x8000_0001;
pub const CALL_NOT_KNOWN: u32 = 0x8000_0002;
pub const ADDRESS: u32 = 0x8000_0003;
pub const BAD_PENDING: u32 = 0x8000_0004;
pub const PARAMETER: u32 = 0x8000_0005;
pub const REQUEST: u32 = 0x8000_0006;
pub const IN_USE: u32 = 0x8000_1003;
pub const SIZE_MISMATCH: u32 = 0x8000_1006;
pub const NO_CHANGE: u32 = 0x8000_1010;

/// How one of the eight calls ends: with a code, or with the caller gone.
pub enum Ended {
    With(u32),
    Gone,
}
