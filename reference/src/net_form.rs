//! The net's form (document 01, "Net, 3,600 bytes"), rule by rule on the raw
//! bytes and without a script. The clauses of acceptance are in `accept`.

use crate::fault::{seeded, Fault};
use crate::names::NONE;
use crate::script_form::{all_zero, number_at, VERSION};

pub const NET_LENGTH: usize = 3600;
pub const NET_MARK: &[u8; 3] = b"RTN";
pub const PRESENT_AT: usize = 8;
pub const SLOTS_AT: usize = 16;
pub const SLOT_LENGTH: usize = 56;
pub const SLOT_COUNT: usize = 64;

/// Offsets within a slot.
pub mod slot_byte {
    pub const KIND: usize = 0;
    pub const LOCALITY: usize = 1;
    pub const NODE_OR_COUNT: usize = 2;
    pub const FIRST_MADE: usize = 3;
    pub const SECOND_MADE: usize = 4;
    pub const USED: usize = 5;
    pub const LOCALITY_MADE: usize = 6;
    pub const TAGS: usize = 8;
    pub const NUMBERS: usize = 16;
    pub const REFERENCES: usize = 48;
}

/// Slot kinds.
pub mod slot_kind {
    pub const FREE: u8 = 0;
    pub const LIVE: u8 = 1;
    pub const PAST: u8 = 2;
    pub const TUPLE: u8 = 3;
    pub const CONSUMED: u8 = 4;
}

/// Tags of variables and of a tuple's fields.
pub mod datum_tag {
    pub const UNSET: u8 = 0;
    pub const VALUE: u8 = 1;
    pub const LOCALITY: u8 = 2;
}

/// The rules of the form, in the order in which they are looked at.
#[derive(Clone, Copy, PartialEq, Eq, PartialOrd, Ord, Hash, Debug)]
pub enum NetRule {
    Length,
    Mark,
    Version,
    HeaderZero,
    SlotKind,
    FreeSlotZero,
    SlotZero,
    Locality,
    Node,
    FieldCount,
    KeysHeld,
    LocalityHeld,
    References,
    LiveHoldsNothing,
    TupleHoldsNothing,
    Tag,
    UnsetNumber,
    LocalityNumber,
    FieldSet,
    FieldsPastCountZero,
}

impl NetRule {
    pub const ALL: [NetRule; 20] = [
        NetRule::Length,
        NetRule::Mark,
        NetRule::Version,
        NetRule::HeaderZero,
        NetRule::SlotKind,
        NetRule::FreeSlotZero,
        NetRule::SlotZero,
        NetRule::Locality,
        NetRule::Node,
        NetRule::FieldCount,
        NetRule::KeysHeld,
        NetRule::LocalityHeld,
        NetRule::References,
        NetRule::LiveHoldsNothing,
        NetRule::TupleHoldsNothing,
        NetRule::Tag,
        NetRule::UnsetNumber,
        NetRule::LocalityNumber,
        NetRule::FieldSet,
        NetRule::FieldsPastCountZero,
    ];

    /// The rule as a sentence.
    pub fn sentence(self) -> &'static str {
        match self {
            NetRule::Length => "a net has 3600 bytes",
            NetRule::Mark => "bytes 0..2 are \"RTN\"",
            NetRule::Version => "version 1 at 4..5",
            NetRule::HeaderZero => "bytes 3, 6, 7 and 12..15 are 0",
            NetRule::SlotKind => "a slot's kind is 0..4",
            NetRule::FreeSlotZero => "a free slot is all 0",
            NetRule::SlotZero => "a slot's bytes 7 and 52..55 are 0",
            NetRule::Locality => "a slot's locality is 0..31",
            NetRule::Node => "a process's node is 0..63",
            NetRule::FieldCount => "a tuple has 1..4 fields",
            NetRule::KeysHeld => "bytes 3..5 are a key or 255",
            NetRule::LocalityHeld => "byte 6 is a locality or 255",
            NetRule::References => "bytes 48..51 are keys or 255",
            NetRule::LiveHoldsNothing => "a live process has 255 in bytes 3..6",
            NetRule::TupleHoldsNothing => "a tuple has 255 in bytes 3..6 and 48..51",
            NetRule::Tag => "tags are 0..2",
            NetRule::UnsetNumber => "unset has number 0",
            NetRule::LocalityNumber => "a locality number is below 32",
            NetRule::FieldSet => "a tuple's fields are none unset",
            NetRule::FieldsPastCountZero => "a tuple's tags and numbers past its fields are 0",
        }
    }

    fn broken_at(self, net: &[u8]) -> Option<Option<usize>> {
        if !self.header_holds(net) {
            return Some(None);
        }
        if net.len() != NET_LENGTH {
            return None;
        }
        (0..SLOT_COUNT)
            .find(|&n| !self.slot_holds(slot_bytes(net, n)))
            .map(Some)
    }

    fn header_holds(self, net: &[u8]) -> bool {
        if self == NetRule::Length {
            return net.len() == NET_LENGTH;
        }
        if net.len() < SLOTS_AT {
            return true;
        }
        match self {
            NetRule::Mark => net[0..3] == *NET_MARK,
            NetRule::Version => net[4..6] == VERSION.to_le_bytes(),
            NetRule::HeaderZero => net[3] == 0 && all_zero(&net[6..8]) && all_zero(&net[12..16]),
            _ => true,
        }
    }

    /// Does the rule hold of one slot?
    pub fn slot_holds(self, slot: &[u8]) -> bool {
        match slot[slot_byte::KIND] {
            slot_kind::FREE => self != NetRule::FreeSlotZero || all_zero(slot),
            slot_kind::LIVE => self.record_holds(slot) && self.live_holds(slot),
            slot_kind::PAST => self.record_holds(slot) && self.process_holds(slot),
            slot_kind::TUPLE | slot_kind::CONSUMED => {
                self.record_holds(slot) && self.tuple_holds(slot)
            }
            _ => self != NetRule::SlotKind,
        }
    }

    /// What processes and tuples have in common.
    fn record_holds(self, slot: &[u8]) -> bool {
        match self {
            NetRule::SlotZero => slot[7] == 0 && all_zero(&slot[52..56]),
            NetRule::Locality => slot[slot_byte::LOCALITY] < 32,
            NetRule::KeysHeld => slot[3..6].iter().all(|&byte| is_key_or_none(byte)),
            NetRule::LocalityHeld => is_locality_or_none(slot[slot_byte::LOCALITY_MADE]),
            NetRule::References => slot[48..52].iter().all(|&byte| is_key_or_none(byte)),
            _ => true,
        }
    }

    fn live_holds(self, slot: &[u8]) -> bool {
        match self {
            NetRule::LiveHoldsNothing => slot[3..7].iter().all(|&byte| byte == NONE),
            _ => self.process_holds(slot),
        }
    }

    fn process_holds(self, slot: &[u8]) -> bool {
        match self {
            NetRule::Node => slot[slot_byte::NODE_OR_COUNT] < 64,
            _ => self.data_hold(slot, 8),
        }
    }

    fn tuple_holds(self, slot: &[u8]) -> bool {
        let count = usize::from(slot[slot_byte::NODE_OR_COUNT]);
        if !(1..=4).contains(&count) {
            return self != NetRule::FieldCount;
        }
        match self {
            NetRule::TupleHoldsNothing => slot[3..7]
                .iter()
                .chain(&slot[48..52])
                .all(|&byte| byte == NONE),
            NetRule::FieldSet => (0..count).all(|i| datum_bytes(slot, i).0 != datum_tag::UNSET),
            NetRule::FieldsPastCountZero => (count..8).all(|i| datum_bytes(slot, i) == (0, 0)),
            _ => self.data_hold(slot, count),
        }
    }

    /// The tags and numbers in use: all eight of a process, a tuple's fields.
    fn data_hold(self, slot: &[u8], used: usize) -> bool {
        let holds: fn(u8, u32) -> bool = match self {
            NetRule::Tag => |tag, _| tag <= datum_tag::LOCALITY,
            NetRule::UnsetNumber => |tag, number| tag != datum_tag::UNSET || number == 0,
            NetRule::LocalityNumber => |tag, number| tag != datum_tag::LOCALITY || number < 32,
            _ => return true,
        };
        (0..used).all(|i| {
            let (tag, number) = datum_bytes(slot, i);
            holds(tag, number)
        })
    }
}

/// A broken rule, and the slot where it is broken first.
#[derive(Clone, Copy, PartialEq, Eq, Debug)]
pub struct BrokenNet {
    pub rule: NetRule,
    pub slot: Option<usize>,
}

/// Every rule of the form that the bytes break, first things first.
pub fn broken_net_rules(net: &[u8]) -> Vec<BrokenNet> {
    NetRule::ALL
        .into_iter()
        .filter_map(|rule| check(net, rule))
        .collect()
}

/// The first rule of the form that the bytes break.
pub fn first_broken_net_rule(net: &[u8]) -> Option<BrokenNet> {
    NetRule::ALL.into_iter().find_map(|rule| check(net, rule))
}

fn check(net: &[u8], rule: NetRule) -> Option<BrokenNet> {
    if seeded(Fault::NetRuleLeftOut(rule)) {
        return None;
    }
    rule.broken_at(net).map(|slot| BrokenNet { rule, slot })
}

fn slot_bytes(net: &[u8], n: usize) -> &[u8] {
    let start = SLOTS_AT + n * SLOT_LENGTH;
    &net[start..start + SLOT_LENGTH]
}

/// Tag and number of a variable or field.
pub fn datum_bytes(slot: &[u8], i: usize) -> (u8, u32) {
    (
        slot[slot_byte::TAGS + i],
        number_at(slot, slot_byte::NUMBERS + 4 * i),
    )
}

fn is_key_or_none(byte: u8) -> bool {
    byte < 64 || byte == NONE
}

fn is_locality_or_none(byte: u8) -> bool {
    byte < 32 || byte == NONE
}
