//! Document 01, "Names and images": keys, localities, variables and nodes are
//! four disjoint sets of names; references are a fifth. Each is its own type,
//! so that none can be taken for another.

use std::fmt;

/// "255 means 'none' where said."
pub const NONE: u8 = 255;

macro_rules! names {
    ($(#[$doc:meta])* $name:ident, $count:expr) => {
        $(#[$doc])*
        #[derive(Clone, Copy, PartialEq, Eq, PartialOrd, Ord, Hash, Debug)]
        pub struct $name(u8);

        impl $name {
            /// How many names of this sort there are.
            pub const COUNT: usize = $count;

            /// The name with this number, if it is in range.
            pub fn new(number: u32) -> Option<$name> {
                ((number as usize) < $count).then_some($name(number as u8))
            }

            /// A place that may be empty: `None` when the byte is out of
            /// range, `Some(None)` when it is 255.
            pub fn optional(byte: u8) -> Option<Option<$name>> {
                if byte == NONE {
                    return Some(None);
                }
                $name::new(u32::from(byte)).map(Some)
            }

            /// The byte for a place that may be empty.
            pub fn byte_or_none(place: Option<$name>) -> u8 {
                place.map_or(NONE, $name::byte)
            }

            pub fn byte(self) -> u8 {
                self.0
            }

            pub fn index(self) -> usize {
                usize::from(self.0)
            }

            /// Every name of this sort, least first.
            pub fn all() -> impl DoubleEndedIterator<Item = $name> {
                (0..$count as u8).map($name)
            }
        }

        impl fmt::Display for $name {
            fn fmt(&self, f: &mut fmt::Formatter<'_>) -> fmt::Result {
                write!(f, "{}", self.0)
            }
        }
    };
}

names!(
    /// A key names a slot of the net: a process or a tuple, now or once.
    Key, 64
);
names!(
    /// A locality is where processes and tuples live.
    Locality, 32
);
names!(
    /// A variable of a process.
    Variable, 8
);
names!(
    /// A node is a point of the script.
    NodeName, 64
);
names!(
    /// A reference of a process holds the key of one of its past actions.
    Reference, 4
);

impl Locality {
    /// Localities 0..7 may be there from the start; 8..31 are made by newloc.
    pub const FIRST_MADE: u8 = 8;

    pub fn is_original(self) -> bool {
        self.0 < Locality::FIRST_MADE
    }
}

/// A set of localities: bit n is locality n.
#[derive(Clone, Copy, PartialEq, Eq, Default, Debug)]
pub struct Localities(pub u32);

impl Localities {
    pub fn contains(self, locality: Locality) -> bool {
        self.0 & (1 << locality.byte()) != 0
    }

    pub fn insert(&mut self, locality: Locality) {
        self.0 |= 1 << locality.byte();
    }

    pub fn remove(&mut self, locality: Locality) {
        self.0 &= !(1 << locality.byte());
    }

    pub fn union(self, other: Localities) -> Localities {
        Localities(self.0 | other.0)
    }

    pub fn iter(self) -> impl Iterator<Item = Locality> {
        Locality::all().filter(move |&l| self.contains(l))
    }
}

/// A set of keys: bit n is key n.
#[derive(Clone, Copy, PartialEq, Eq, Default, Debug)]
pub struct Keys(pub u64);

impl Keys {
    pub fn contains(self, key: Key) -> bool {
        self.0 & (1 << key.byte()) != 0
    }

    pub fn insert(&mut self, key: Key) {
        self.0 |= 1 << key.byte();
    }

    pub fn remove(&mut self, key: Key) {
        self.0 &= !(1 << key.byte());
    }

    pub fn len(self) -> u32 {
        self.0.count_ones()
    }

    pub fn is_empty(self) -> bool {
        self.0 == 0
    }

    pub fn iter(self) -> impl Iterator<Item = Key> {
        Key::all().filter(move |&k| self.contains(k))
    }
}
