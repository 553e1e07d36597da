//! Why a call does nothing: the numbers of `redplay.h`, and of the profile for files that cannot be read.

use crate::raw;
use alloc::string::String;
use core::fmt;

/// Why a call does nothing: the number that `redplay.h` and the profile name.
#[derive(Clone, Copy, Debug, PartialEq, Eq, Hash)]
pub struct Refused(pub u32);

/// Of a file that cannot be read, or of files that make no service, by the names of the profile.
impl Refused {
    pub const TRUNCATED: Refused = Refused(1);
    pub const BAD_TAG: Refused = Refused(2);
    pub const LONG_LENGTH: Refused = Refused(3);
    pub const INDEFINITE: Refused = Refused(4);
    pub const BAD_INTEGER: Refused = Refused(5);
    pub const BAD_BOOLEAN: Refused = Refused(6);
    pub const TRAILING: Refused = Refused(7);
    pub const UNKNOWN_TAG: Refused = Refused(10);
    pub const MISSING_FIELD: Refused = Refused(11);
    pub const WRONG_ORDER: Refused = Refused(12);
    pub const BINARY_LIMIT: Refused = Refused(13);
    pub const BAD_VALUE: Refused = Refused(14);
    pub const LEXICAL: Refused = Refused(20);
    pub const SYNTAX: Refused = Refused(21);
    pub const UNKNOWN_NAME: Refused = Refused(22);
    pub const RANGE: Refused = Refused(23);
    pub const TEXT_LIMIT: Refused = Refused(24);
    pub const DOUBLE_NAME: Refused = Refused(30);
    pub const NO_START: Refused = Refused(31);
    pub const DOUBLE_NUMBER: Refused = Refused(32);
    pub const NOT_AN_APPLICATION: Refused = Refused(33);
    pub const SERVICE_LIMIT: Refused = Refused(34);
    pub const BAD_REFERENCE: Refused = Refused(35);
    pub const NOT_A_SCENE: Refused = Refused(37);
}

/// Of the engine, and of the library.
impl Refused {
    pub const FILE_TOO_LARGE: Refused = Refused(40);
    pub const TOO_MANY_FILES: Refused = Refused(41);
    pub const QUEUE_FULL: Refused = Refused(51);
    pub const ENDED: Refused = Refused(52);
    pub const CLOCK_FULL: Refused = Refused(53);
    pub const TICK_RANGE: Refused = Refused(54);
    pub const NOT_LATE: Refused = Refused(57);
    pub const SCENE_DIFFERS: Refused = Refused(58);
    pub const NO_SEAL: Refused = Refused(70);
    pub const OTHER_SEAL: Refused = Refused(71);
    pub const NOT_HERE: Refused = Refused(72);
    pub const OTHER_TAGS: Refused = Refused(73);
    pub const NO_MEMORY: Refused = Refused(100);
    pub const NO_SESSION: Refused = Refused(101);
    pub const UNACCEPTED: Refused = Refused(102);
    pub const NO_KEY: Refused = Refused(104);
    pub const NO_PATH: Refused = Refused(105);
    pub const IN_USE: Refused = Refused(106);
    pub const OUT_OF_RANGE: Refused = Refused(107);
}

impl Refused {
    /// What the number means, as the library says it; nothing where no call of it answers the number. `check` tells more of a service
    /// that is not played: the file, and the byte.
    pub fn text(self) -> String {
        let (mut text, mut length) = ([0; 128], 0);
        // SAFETY: the room has its length.
        let answer =
            unsafe { raw::redplay_why(self.0, text.as_mut_ptr(), text.len(), &mut length) };
        let told = if answer == 0 {
            length.min(text.len())
        } else {
            0
        };
        String::from_utf8_lossy(&text[..told]).into_owned()
    }
}

impl fmt::Display for Refused {
    fn fmt(&self, to: &mut fmt::Formatter<'_>) -> fmt::Result {
        write!(to, "{} ({})", self.text(), self.0)
    }
}

impl core::error::Error for Refused {}
