//! Keys of the remote control, by their numbers, for `Input::Key`.

pub const UP: u32 = 1;
pub const DOWN: u32 = 2;
pub const LEFT: u32 = 3;
pub const RIGHT: u32 = 4;
pub const SELECT: u32 = 15;
pub const CANCEL: u32 = 16;
pub const RED: u32 = 100;
pub const GREEN: u32 = 101;
pub const YELLOW: u32 = 102;
pub const BLUE: u32 = 103;
pub const TEXT: u32 = 104;

/// The key of a digit, or `None` where it is none.
pub const fn digit(digit: u32) -> Option<u32> {
    match digit {
        0..=9 => Some(5 + digit),
        _ => None,
    }
}
