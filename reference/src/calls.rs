//! Calls on bytes: a stream of scripts, nets, changed bytes and questions that
//! can be read one byte at a time, and what the second program says to each.
//! Beside requests of every code it asks the finder and the two helpers;
//! script, net and request may have any length.

use crate::answer::{Answer, Report};
use crate::crc32::crc32;
use crate::machine::{answer, find, least_absent_locality, least_free_key};
use crate::random::Random;

/// The letter that begins each item.
pub mod letter {
    pub const SCRIPT: u8 = b'S';
    pub const NET: u8 = b'N';
    pub const PATCH: u8 = b'P';
    pub const BASE: u8 = b'B';
    pub const CALL: u8 = b'C';
    pub const FIND: u8 = b'F';
    pub const FREE_KEY: u8 = b'K';
    pub const FREE_LOCALITY: u8 = b'L';
}

/// No script and no net of a stream is longer: both images of document 01 are
/// shorter, and there is room for longer ones that are refused.
pub const LONGEST_IMAGE: usize = 4096;

/// No request of a stream is longer; document 01's have six bytes.
pub const LONGEST_REQUEST: usize = 16;

/// One item of the stream.
#[derive(Clone, Copy, PartialEq, Eq, Debug)]
pub enum Item<'a> {
    /// The script from here on.
    Script(&'a [u8]),
    /// The net from here on, also kept as the base.
    Net(&'a [u8]),
    /// That byte of the net is changed.
    Patch(u16, u8),
    /// The net is the base again, its length too.
    Base,
    /// A question: what does this request give?
    Call(&'a [u8]),
    /// A question: what does the finder say to this key?
    Find(u8),
    /// A question: the least free key?
    FreeKey,
    /// A question: the least absent locality from 8?
    FreeLocality,
}

impl Item<'_> {
    /// Appends the letter and what follows it.
    pub fn write(&self, stream: &mut Vec<u8>) {
        match *self {
            Item::Script(bytes) => write_image(stream, letter::SCRIPT, bytes),
            Item::Net(bytes) => write_image(stream, letter::NET, bytes),
            Item::Patch(at, byte) => {
                let [low, high] = at.to_le_bytes();
                stream.extend([letter::PATCH, low, high, byte]);
            }
            Item::Base => stream.push(letter::BASE),
            Item::Call(request) => {
                assert!(request.len() <= LONGEST_REQUEST);
                stream.extend([letter::CALL, request.len() as u8]);
                stream.extend(request);
            }
            Item::Find(key) => stream.extend([letter::FIND, key]),
            Item::FreeKey => stream.push(letter::FREE_KEY),
            Item::FreeLocality => stream.push(letter::FREE_LOCALITY),
        }
    }

    /// Is something said to it?
    pub fn is_question(&self) -> bool {
        matches!(
            self,
            Item::Call(_) | Item::Find(_) | Item::FreeKey | Item::FreeLocality
        )
    }
}

fn write_image(stream: &mut Vec<u8>, letter: u8, bytes: &[u8]) {
    assert!(bytes.len() <= LONGEST_IMAGE);
    stream.push(letter);
    stream.extend((bytes.len() as u16).to_le_bytes());
    stream.extend(bytes);
}

/// The items of a stream. An item that is cut short, a length beyond the
/// limits, or a letter that begins none, ends it.
pub struct Items<'a> {
    left: &'a [u8],
}

impl<'a> Items<'a> {
    pub fn of(stream: &'a [u8]) -> Items<'a> {
        Items { left: stream }
    }
}

impl<'a> Iterator for Items<'a> {
    type Item = Item<'a>;

    fn next(&mut self) -> Option<Item<'a>> {
        let mut left = self.left;
        let item = match take_byte(&mut left)? {
            letter::SCRIPT => Item::Script(take_image(&mut left)?),
            letter::NET => Item::Net(take_image(&mut left)?),
            letter::PATCH => Item::Patch(take_number(&mut left)?, take_byte(&mut left)?),
            letter::BASE => Item::Base,
            letter::CALL => Item::Call(take_request(&mut left)?),
            letter::FIND => Item::Find(take_byte(&mut left)?),
            letter::FREE_KEY => Item::FreeKey,
            letter::FREE_LOCALITY => Item::FreeLocality,
            _ => return None,
        };
        self.left = left;
        Some(item)
    }
}

fn take_byte(left: &mut &[u8]) -> Option<u8> {
    let (&byte, rest) = left.split_first()?;
    *left = rest;
    Some(byte)
}

/// Little-endian.
fn take_number(left: &mut &[u8]) -> Option<u16> {
    Some(u16::from_le_bytes([take_byte(left)?, take_byte(left)?]))
}

fn take_bytes<'a>(left: &mut &'a [u8], count: usize, most: usize) -> Option<&'a [u8]> {
    if count > most {
        return None;
    }
    let (bytes, rest) = left.split_at_checked(count)?;
    *left = rest;
    Some(bytes)
}

fn take_image<'a>(left: &mut &'a [u8]) -> Option<&'a [u8]> {
    let count = take_number(left)?;
    take_bytes(left, usize::from(count), LONGEST_IMAGE)
}

fn take_request<'a>(left: &mut &'a [u8]) -> Option<&'a [u8]> {
    let count = take_byte(left)?;
    take_bytes(left, usize::from(count), LONGEST_REQUEST)
}

/// What is said to a question.
#[derive(Clone, Copy, PartialEq, Eq, Debug)]
pub enum Said {
    /// What the request gave, and the CRC-32 of the whole net after it.
    Call(Report, u32),
    /// The finder's answer and key.
    Find(Answer, u8),
    /// A helper's answer and name.
    FreeKey(Answer, u8),
    FreeLocality(Answer, u8),
}

impl Said {
    pub fn line(&self) -> String {
        let named = |letter: u8, answer: &Answer, name: &u8| {
            format!("{} {} {name}", char::from(letter), answer.number())
        };
        match self {
            Said::Call(report, crc) => format!("C {} {crc:08x}", report.line()),
            Said::Find(answer, key) => named(letter::FIND, answer, key),
            Said::FreeKey(answer, key) => named(letter::FREE_KEY, answer, key),
            Said::FreeLocality(answer, locality) => named(letter::FREE_LOCALITY, answer, locality),
        }
    }

    pub fn answer(&self) -> Answer {
        match self {
            Said::Call(report, _) => report.answer,
            Said::Find(answer, _) | Said::FreeKey(answer, _) | Said::FreeLocality(answer, _) => {
                *answer
            }
        }
    }
}

/// The script, the net and the base, as they stand between two items. Before
/// the first script and net they have no bytes.
#[derive(Clone, PartialEq, Eq, Default, Debug)]
pub struct Bench {
    pub script: Vec<u8>,
    pub net: Vec<u8>,
    pub base: Vec<u8>,
}

impl Bench {
    /// Takes one item; says something where it is a question.
    pub fn take(&mut self, item: Item) -> Option<Said> {
        match item {
            Item::Script(bytes) => self.script = bytes.to_vec(),
            Item::Net(bytes) => {
                self.net = bytes.to_vec();
                self.base = bytes.to_vec();
            }
            Item::Patch(at, byte) => self.patch(usize::from(at), byte),
            Item::Base => self.net.clone_from(&self.base),
            Item::Call(request) => return Some(self.call(request)),
            Item::Find(key) => return Some(self.find(key)),
            Item::FreeKey => return Some(self.free_key()),
            Item::FreeLocality => return Some(self.free_locality()),
        }
        None
    }

    /// A place past the net's end changes nothing.
    fn patch(&mut self, at: usize, byte: u8) {
        if let Some(place) = self.net.get_mut(at) {
            *place = byte;
        }
    }

    fn call(&mut self, request: &[u8]) -> Said {
        let report = answer(&self.script, &mut self.net, request, &mut Random::new(0));
        Said::Call(report, crc32(&self.net))
    }

    fn find(&self, key: u8) -> Said {
        let (answer, tuple) = find(&self.script, &self.net, key);
        Said::Find(answer, tuple)
    }

    fn free_key(&self) -> Said {
        let (answer, key) = least_free_key(&self.script, &self.net);
        Said::FreeKey(answer, key)
    }

    fn free_locality(&self) -> Said {
        let (answer, locality) = least_absent_locality(&self.script, &self.net);
        Said::FreeLocality(answer, locality)
    }
}

/// What is said to the questions of a stream, one after the other.
pub fn said(stream: &[u8]) -> impl Iterator<Item = Said> + '_ {
    let mut bench = Bench::default();
    Items::of(stream).filter_map(move |item| bench.take(item))
}

/// A line for each question.
pub fn answer_calls(stream: &[u8]) -> String {
    said(stream).map(|said| said.line() + "\n").collect()
}
