//! A net taken apart: the present localities and sixty-four slots.

use crate::names::{Key, Keys, Localities, Locality, NodeName, Reference, Variable};
use crate::net_form::{
    datum_bytes, datum_tag, first_broken_net_rule, slot_byte, slot_kind, BrokenNet, NET_LENGTH,
    NET_MARK, PRESENT_AT, SLOTS_AT, SLOT_LENGTH,
};
use crate::script_form::{number_at, VERSION};

/// What a variable or a tuple's field holds.
#[derive(Clone, Copy, PartialEq, Eq, Debug)]
pub enum Datum {
    Unset,
    Value(u32),
    Locality(Locality),
}

/// "Every process carries its eight variables."
#[derive(Clone, PartialEq, Eq, Debug)]
pub struct Process {
    pub locality: Locality,
    pub node: NodeName,
    pub variables: [Datum; Variable::COUNT],
    pub references: [Option<Key>; Reference::COUNT],
}

/// Bytes 3 to 6 of a past process: what it made and used.
#[derive(Clone, Copy, PartialEq, Eq, Default, Debug)]
pub struct Memory {
    /// Byte 3: the continuation, or the left side of a split.
    pub first: Option<Key>,
    /// Byte 4: the tuple of an out, the spawned process of an eval, the right
    /// side of a split.
    pub second: Option<Key>,
    /// Byte 5: the tuple of an in or read.
    pub used: Option<Key>,
    /// Byte 6: the locality of a newloc.
    pub locality: Option<Locality>,
}

impl Memory {
    /// The keys made, place by place.
    pub fn made(&self) -> impl Iterator<Item = Key> {
        self.first.into_iter().chain(self.second)
    }

    pub fn made_key(&self, key: Key) -> bool {
        self.first == Some(key) || self.second == Some(key)
    }
}

#[derive(Clone, PartialEq, Eq, Debug)]
pub struct Tuple {
    pub locality: Locality,
    pub fields: Vec<Datum>,
}

/// What is at a key.
#[derive(Clone, PartialEq, Eq, Debug)]
pub enum Slot {
    Free,
    Live(Process),
    Past(Process, Memory),
    Tuple(Tuple),
    Consumed(Tuple),
}

impl Slot {
    /// The process, live or past.
    pub fn process(&self) -> Option<&Process> {
        match self {
            Slot::Live(process) | Slot::Past(process, _) => Some(process),
            _ => None,
        }
    }

    /// The tuple, live or consumed.
    pub fn tuple(&self) -> Option<&Tuple> {
        match self {
            Slot::Tuple(tuple) | Slot::Consumed(tuple) => Some(tuple),
            _ => None,
        }
    }

    pub fn locality(&self) -> Option<Locality> {
        let of_process = self.process().map(|process| process.locality);
        of_process.or(self.tuple().map(|tuple| tuple.locality))
    }

    /// Live: a live process or a live tuple.
    pub fn is_live(&self) -> bool {
        matches!(self, Slot::Live(_) | Slot::Tuple(_))
    }

    /// Taken apart, if the bytes are in range.
    pub fn decode(bytes: &[u8]) -> Option<Slot> {
        match bytes[slot_byte::KIND] {
            slot_kind::FREE => Some(Slot::Free),
            slot_kind::LIVE => decode_process(bytes).map(Slot::Live),
            slot_kind::PAST => Some(Slot::Past(decode_process(bytes)?, decode_memory(bytes)?)),
            slot_kind::TUPLE => decode_tuple(bytes).map(Slot::Tuple),
            slot_kind::CONSUMED => decode_tuple(bytes).map(Slot::Consumed),
            _ => None,
        }
    }

    pub fn encode(&self) -> [u8; SLOT_LENGTH] {
        let mut bytes = [0; SLOT_LENGTH];
        match self {
            Slot::Free => {}
            Slot::Live(process) => {
                bytes[slot_byte::KIND] = slot_kind::LIVE;
                encode_process(process, &Memory::default(), &mut bytes);
            }
            Slot::Past(process, memory) => {
                bytes[slot_byte::KIND] = slot_kind::PAST;
                encode_process(process, memory, &mut bytes);
            }
            Slot::Tuple(tuple) => {
                bytes[slot_byte::KIND] = slot_kind::TUPLE;
                encode_tuple(tuple, &mut bytes);
            }
            Slot::Consumed(tuple) => {
                bytes[slot_byte::KIND] = slot_kind::CONSUMED;
                encode_tuple(tuple, &mut bytes);
            }
        }
        bytes
    }
}

fn decode_process(bytes: &[u8]) -> Option<Process> {
    let mut variables = [Datum::Unset; Variable::COUNT];
    for (i, variable) in variables.iter_mut().enumerate() {
        *variable = decode_datum(bytes, i)?;
    }
    let mut references = [None; Reference::COUNT];
    for (i, reference) in references.iter_mut().enumerate() {
        *reference = Key::optional(bytes[slot_byte::REFERENCES + i])?;
    }
    Some(Process {
        locality: Locality::new(u32::from(bytes[slot_byte::LOCALITY]))?,
        node: NodeName::new(u32::from(bytes[slot_byte::NODE_OR_COUNT]))?,
        variables,
        references,
    })
}

fn decode_memory(bytes: &[u8]) -> Option<Memory> {
    Some(Memory {
        first: Key::optional(bytes[slot_byte::FIRST_MADE])?,
        second: Key::optional(bytes[slot_byte::SECOND_MADE])?,
        used: Key::optional(bytes[slot_byte::USED])?,
        locality: Locality::optional(bytes[slot_byte::LOCALITY_MADE])?,
    })
}

fn decode_tuple(bytes: &[u8]) -> Option<Tuple> {
    let count = usize::from(bytes[slot_byte::NODE_OR_COUNT]).min(8);
    let fields = (0..count)
        .map(|i| decode_datum(bytes, i))
        .collect::<Option<_>>()?;
    Some(Tuple {
        locality: Locality::new(u32::from(bytes[slot_byte::LOCALITY]))?,
        fields,
    })
}

fn decode_datum(bytes: &[u8], i: usize) -> Option<Datum> {
    let (tag, number) = datum_bytes(bytes, i);
    match tag {
        datum_tag::UNSET => Some(Datum::Unset),
        datum_tag::VALUE => Some(Datum::Value(number)),
        datum_tag::LOCALITY => Locality::new(number).map(Datum::Locality),
        _ => None,
    }
}

fn encode_process(process: &Process, memory: &Memory, bytes: &mut [u8; SLOT_LENGTH]) {
    bytes[slot_byte::LOCALITY] = process.locality.byte();
    bytes[slot_byte::NODE_OR_COUNT] = process.node.byte();
    bytes[slot_byte::FIRST_MADE] = Key::byte_or_none(memory.first);
    bytes[slot_byte::SECOND_MADE] = Key::byte_or_none(memory.second);
    bytes[slot_byte::USED] = Key::byte_or_none(memory.used);
    bytes[slot_byte::LOCALITY_MADE] = Locality::byte_or_none(memory.locality);
    encode_data(&process.variables, bytes);
    for (i, &reference) in process.references.iter().enumerate() {
        bytes[slot_byte::REFERENCES + i] = Key::byte_or_none(reference);
    }
}

fn encode_tuple(tuple: &Tuple, bytes: &mut [u8; SLOT_LENGTH]) {
    bytes[slot_byte::LOCALITY] = tuple.locality.byte();
    bytes[slot_byte::NODE_OR_COUNT] = tuple.fields.len() as u8;
    bytes[3..7].fill(crate::names::NONE);
    encode_data(&tuple.fields, bytes);
    bytes[48..52].fill(crate::names::NONE);
}

fn encode_data(data: &[Datum], bytes: &mut [u8; SLOT_LENGTH]) {
    for (i, &datum) in data.iter().enumerate() {
        let (tag, number) = match datum {
            Datum::Unset => (datum_tag::UNSET, 0),
            Datum::Value(number) => (datum_tag::VALUE, number),
            Datum::Locality(l) => (datum_tag::LOCALITY, u32::from(l.byte())),
        };
        bytes[slot_byte::TAGS + i] = tag;
        let at = slot_byte::NUMBERS + 4 * i;
        bytes[at..at + 4].copy_from_slice(&number.to_le_bytes());
    }
}

/// The present localities and what is at each key.
#[derive(Clone, PartialEq, Eq, Debug)]
pub struct Net {
    pub present: Localities,
    slots: Vec<Slot>,
}

impl Net {
    /// No locality present, every slot free.
    pub fn empty() -> Net {
        Net {
            present: Localities::default(),
            slots: vec![Slot::Free; Key::COUNT],
        }
    }

    /// The net's length and form, as the "Net" paragraph alone has them.
    pub fn read(bytes: &[u8]) -> Result<Net, BrokenNet> {
        if let Some(broken) = first_broken_net_rule(bytes) {
            return Err(broken);
        }
        let slots = bytes[SLOTS_AT..NET_LENGTH]
            .chunks(SLOT_LENGTH)
            .map(|slot| Slot::decode(slot).expect("the form was checked"))
            .collect();
        Ok(Net {
            present: Localities(number_at(bytes, PRESENT_AT)),
            slots,
        })
    }

    pub fn write(&self) -> Vec<u8> {
        let mut bytes = vec![0; SLOTS_AT];
        bytes[0..3].copy_from_slice(NET_MARK);
        bytes[4..6].copy_from_slice(&VERSION.to_le_bytes());
        bytes[PRESENT_AT..PRESENT_AT + 4].copy_from_slice(&self.present.0.to_le_bytes());
        for slot in &self.slots {
            bytes.extend_from_slice(&slot.encode());
        }
        bytes
    }

    pub fn slot(&self, key: Key) -> &Slot {
        &self.slots[key.index()]
    }

    pub fn set(&mut self, key: Key, slot: Slot) {
        self.slots[key.index()] = slot;
    }

    /// Takes the record out of its slot, which becomes free.
    pub fn take(&mut self, key: Key) -> Slot {
        std::mem::replace(&mut self.slots[key.index()], Slot::Free)
    }

    /// The records: every key that is not free.
    pub fn records(&self) -> impl Iterator<Item = (Key, &Slot)> {
        Key::all()
            .zip(&self.slots)
            .filter(|(_, slot)| **slot != Slot::Free)
    }

    /// The events: every past process.
    pub fn events(&self) -> impl Iterator<Item = (Key, &Process, &Memory)> {
        self.records().filter_map(|(key, slot)| match slot {
            Slot::Past(process, memory) => Some((key, process, memory)),
            _ => None,
        })
    }

    pub fn event_keys(&self) -> Keys {
        let mut keys = Keys::default();
        self.events().for_each(|(key, _, _)| keys.insert(key));
        keys
    }

    pub fn memory(&self, key: Key) -> Option<&Memory> {
        match self.slot(key) {
            Slot::Past(_, memory) => Some(memory),
            _ => None,
        }
    }

    pub fn is_free(&self, key: Key) -> bool {
        *self.slot(key) == Slot::Free
    }
}
