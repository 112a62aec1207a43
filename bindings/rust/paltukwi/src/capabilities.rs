//! What a seat or a device is capable of.

use std::fmt;
use std::ops::{BitAnd, BitOr};

/// A set of capabilities: the bits of a mask, as they cross the wire.
///
/// It may hold bits that stand for none; [`Session::start`](crate::Session::start) and the calls of a [`Link`](crate::Link)
/// refuse those.
#[derive(Clone, Copy, Default, PartialEq, Eq, Hash)]
pub struct Capabilities(u64);

impl Capabilities {
    /// No capability.
    pub const NONE: Capabilities = Capabilities(0);
    /// Motion of a pointer, by a distance.
    pub const POINTER: Capabilities = Capabilities(paltukwi_sys::REIS_CAPABILITY_POINTER);
    /// Motion of a pointer, to a position.
    pub const POINTER_ABSOLUTE: Capabilities =
        Capabilities(paltukwi_sys::REIS_CAPABILITY_POINTER_ABSOLUTE);
    /// Keys.
    pub const KEYBOARD: Capabilities = Capabilities(paltukwi_sys::REIS_CAPABILITY_KEYBOARD);
    /// Touches.
    pub const TOUCH: Capabilities = Capabilities(paltukwi_sys::REIS_CAPABILITY_TOUCH);
    /// Scrolling.
    pub const SCROLL: Capabilities = Capabilities(paltukwi_sys::REIS_CAPABILITY_SCROLL);
    /// Buttons.
    pub const BUTTON: Capabilities = Capabilities(paltukwi_sys::REIS_CAPABILITY_BUTTON);
    /// Texts and keysyms.
    pub const TEXT: Capabilities = Capabilities(paltukwi_sys::REIS_CAPABILITY_TEXT);
    /// Gestures of several fingers.
    pub const GESTURE: Capabilities = Capabilities(paltukwi_sys::REIS_CAPABILITY_GESTURE);
    /// All of them.
    pub const ALL: Capabilities = Capabilities(paltukwi_sys::REIS_ALL_CAPABILITIES);

    /// The set of these bits.
    #[must_use]
    pub const fn from_bits(bits: u64) -> Capabilities {
        Capabilities(bits)
    }

    /// The bits of the set.
    #[must_use]
    pub const fn bits(self) -> u64 {
        self.0
    }

    /// Whether it holds each of the others.
    #[must_use]
    pub const fn contains(self, others: Capabilities) -> bool {
        self.0 & others.0 == others.0
    }

    /// Whether it holds none.
    #[must_use]
    pub const fn is_empty(self) -> bool {
        self.0 == 0
    }
}

impl BitOr for Capabilities {
    type Output = Capabilities;

    fn bitor(self, others: Capabilities) -> Capabilities {
        Capabilities(self.0 | others.0)
    }
}

impl BitAnd for Capabilities {
    type Output = Capabilities;

    fn bitand(self, others: Capabilities) -> Capabilities {
        Capabilities(self.0 & others.0)
    }
}

impl fmt::Debug for Capabilities {
    fn fmt(&self, f: &mut fmt::Formatter<'_>) -> fmt::Result {
        write!(f, "Capabilities({:#x})", self.0)
    }
}
