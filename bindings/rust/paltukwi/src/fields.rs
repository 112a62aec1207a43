//! The fields of a request, as the library writes and reads them.

use crate::{Capabilities, DeviceId, SeatId};
use paltukwi_sys as sys;
use std::mem;

/// What a request has besides its fields, as the library writes it.
pub(crate) trait Part {
    fn part(number: u64) -> Self;
}

impl Part for SeatId {
    fn part(number: u64) -> SeatId {
        SeatId(number)
    }
}

impl Part for DeviceId {
    fn part(number: u64) -> DeviceId {
        DeviceId(number)
    }
}

impl Part for u64 {
    fn part(number: u64) -> u64 {
        number
    }
}

/// The fields that the library wrote, read one after another, and the text where there is one.
pub(crate) struct Fields {
    left: std::array::IntoIter<u64, 4>,
    text: String,
}

impl Fields {
    pub(crate) fn of(raw: &sys::reis_request, text: impl FnOnce() -> String) -> Fields {
        // SAFETY: all four were set to 0 before the library wrote its own, and each pattern of bits is a number.
        let fields = unsafe { raw.of.fields };
        let has_text = raw.kind == sys::REIS_KIND_TEXT_UTF8;
        Fields { left: fields.into_iter(), text: if has_text { text() } else { String::new() } }
    }

    pub(crate) fn next<T: Field>(&mut self) -> T {
        let field = self.left.next().unwrap_or(0);
        T::field(field, &mut self.text)
    }
}

/// These numbers as the first fields; the others are 0.
pub(crate) fn fields_of<const COUNT: usize>(numbers: [u64; COUNT]) -> sys::reis_fields {
    let mut fields = [0; 4];
    fields[..COUNT].copy_from_slice(&numbers);
    sys::reis_fields { fields }
}

/// A field as its kind wants it: numbers of 32 bits stand in the low half, and a text stands apart.
pub(crate) trait Field {
    fn field(field: u64, text: &mut String) -> Self;

    /// The field that says this.
    fn number(&self) -> u64;
}

impl Field for u32 {
    #[allow(clippy::cast_possible_truncation)]
    fn field(field: u64, _: &mut String) -> u32 {
        field as u32
    }

    fn number(&self) -> u64 {
        u64::from(*self)
    }
}

impl Field for u64 {
    fn field(field: u64, _: &mut String) -> u64 {
        field
    }

    fn number(&self) -> u64 {
        *self
    }
}

impl Field for i32 {
    fn field(field: u64, text: &mut String) -> i32 {
        i32::from_ne_bytes(u32::field(field, text).to_ne_bytes())
    }

    fn number(&self) -> u64 {
        u32::from_ne_bytes(self.to_ne_bytes()).number()
    }
}

impl Field for f32 {
    fn field(field: u64, text: &mut String) -> f32 {
        f32::from_bits(u32::field(field, text))
    }

    fn number(&self) -> u64 {
        self.to_bits().number()
    }
}

impl Field for bool {
    fn field(field: u64, text: &mut String) -> bool {
        u32::field(field, text) == 1
    }

    fn number(&self) -> u64 {
        u64::from(*self)
    }
}

impl Field for Capabilities {
    fn field(field: u64, _: &mut String) -> Capabilities {
        Capabilities::from_bits(field)
    }

    fn number(&self) -> u64 {
        self.bits()
    }
}

impl Field for String {
    fn field(_: u64, text: &mut String) -> String {
        mem::take(text)
    }

    fn number(&self) -> u64 {
        self.len() as u64
    }
}
