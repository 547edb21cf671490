//! Document 01, "Requests and what comes back": the six bytes.

use crate::fault::{seeded, Fault};
use crate::names::{Key, Locality, NONE};

pub const REQUEST_LENGTH: usize = 6;

#[derive(Clone, Copy, PartialEq, Eq, PartialOrd, Ord, Hash, Debug)]
pub enum Code {
    Forward = 0,
    Backward = 1,
    Rollback = 2,
    Roll = 3,
}

impl Code {
    pub const ALL: [Code; 4] = [Code::Forward, Code::Backward, Code::Rollback, Code::Roll];
}

/// "Request not 6 bytes": it is refused, but for the seeded errors.
fn another_length(bytes: &[u8]) -> Option<Request> {
    let cut = bytes.len() > REQUEST_LENGTH && seeded(Fault::LongRequestCut);
    let filled = bytes.len() < REQUEST_LENGTH && seeded(Fault::ShortRequestFilled);
    if !cut && !filled {
        return None;
    }
    let mut bytes = bytes.to_vec();
    bytes.resize(REQUEST_LENGTH, NONE);
    Request::read(&bytes)
}

/// The four places after the key; 255 is `None`.
#[derive(Clone, Copy, PartialEq, Eq, Default, Debug)]
pub struct Places {
    pub tuple: Option<Key>,
    pub first: Option<Key>,
    pub second: Option<Key>,
    pub locality: Option<Locality>,
}

impl Places {
    /// Which of the four are not 255.
    pub fn filled(&self) -> [bool; 4] {
        [
            self.tuple.is_some(),
            self.first.is_some(),
            self.second.is_some(),
            self.locality.is_some(),
        ]
    }
}

#[derive(Clone, Copy, PartialEq, Eq, Debug)]
pub struct Request {
    pub code: Code,
    pub key: Key,
    pub places: Places,
}

impl Request {
    /// Check 3: "request not 6 bytes; code above 3; key above 63; others
    /// neither 255 nor in range".
    pub fn read(bytes: &[u8]) -> Option<Request> {
        let &[code, key, tuple, first, second, locality] = bytes else {
            return another_length(bytes);
        };
        Some(Request {
            code: *Code::ALL.get(usize::from(code))?,
            key: Key::new(u32::from(key))?,
            places: Places {
                tuple: Key::optional(tuple)?,
                first: Key::optional(first)?,
                second: Key::optional(second)?,
                locality: Locality::optional(locality)?,
            },
        })
    }

    pub fn write(&self) -> [u8; REQUEST_LENGTH] {
        [
            self.code as u8,
            self.key.byte(),
            Key::byte_or_none(self.places.tuple),
            Key::byte_or_none(self.places.first),
            Key::byte_or_none(self.places.second),
            Locality::byte_or_none(self.places.locality),
        ]
    }

    /// A request that needs no place: codes 1 to 3.
    pub fn bare(code: Code, key: Key) -> Request {
        Request {
            code,
            key,
            places: Places::default(),
        }
    }
}
