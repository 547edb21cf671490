//! Trials: a stream of scripts, nets, changed bytes and questions that can be
//! read one byte at a time, and what the second program says to each question.

use crate::answer::{Answer, Report};
use crate::crc32::crc32;
use crate::machine::{answer, open};
use crate::net_form::NET_LENGTH;
use crate::random::Random;
use crate::request::REQUEST_LENGTH;
use crate::script_form::SCRIPT_LENGTH;

/// The letter that begins each item.
pub mod letter {
    pub const SCRIPT: u8 = b'S';
    pub const NET: u8 = b'N';
    pub const PATCH: u8 = b'P';
    pub const BASE: u8 = b'B';
    pub const VERDICT: u8 = b'V';
    pub const REQUEST: u8 = b'R';
}

/// One item of the stream.
#[derive(Clone, Copy, PartialEq, Eq, Debug)]
pub enum Item<'a> {
    /// The script from here on.
    Script(&'a [u8]),
    /// The net from here on, also kept as the base.
    Net(&'a [u8]),
    /// That byte of the net is changed.
    Patch(u16, u8),
    /// The net is the base again.
    Base,
    /// A question: are script and net good?
    Verdict,
    /// A question: what does this request give?
    Request(&'a [u8]),
}

impl Item<'_> {
    /// Appends the letter and what follows it.
    pub fn write(&self, stream: &mut Vec<u8>) {
        match *self {
            Item::Script(bytes) => write_letter(stream, letter::SCRIPT, bytes),
            Item::Net(bytes) => write_letter(stream, letter::NET, bytes),
            Item::Patch(at, byte) => {
                let [low, high] = at.to_le_bytes();
                write_letter(stream, letter::PATCH, &[low, high, byte]);
            }
            Item::Base => write_letter(stream, letter::BASE, &[]),
            Item::Verdict => write_letter(stream, letter::VERDICT, &[]),
            Item::Request(bytes) => write_letter(stream, letter::REQUEST, bytes),
        }
    }
}

fn write_letter(stream: &mut Vec<u8>, letter: u8, bytes: &[u8]) {
    stream.push(letter);
    stream.extend(bytes);
}

/// The items of a stream. An item that is cut short, or a letter that begins
/// none, ends it.
pub struct Items<'a> {
    left: &'a [u8],
}

impl<'a> Items<'a> {
    pub fn of(stream: &'a [u8]) -> Items<'a> {
        Items { left: stream }
    }
}

impl<'a> Iterator for Items<'a> {
    type Item = Item<'a>;

    fn next(&mut self) -> Option<Item<'a>> {
        let (&letter, rest) = self.left.split_first()?;
        let (bytes, left) = rest.split_at_checked(length_after(letter)?)?;
        self.left = left;
        match (letter, bytes) {
            (letter::SCRIPT, script) => Some(Item::Script(script)),
            (letter::NET, net) => Some(Item::Net(net)),
            (letter::PATCH, &[low, high, byte]) => {
                Some(Item::Patch(u16::from_le_bytes([low, high]), byte))
            }
            (letter::BASE, _) => Some(Item::Base),
            (letter::VERDICT, _) => Some(Item::Verdict),
            (_, request) => Some(Item::Request(request)),
        }
    }
}

/// How many bytes follow a letter.
fn length_after(letter: u8) -> Option<usize> {
    match letter {
        letter::SCRIPT => Some(SCRIPT_LENGTH),
        letter::NET => Some(NET_LENGTH),
        letter::PATCH => Some(3),
        letter::BASE | letter::VERDICT => Some(0),
        letter::REQUEST => Some(REQUEST_LENGTH),
        _ => None,
    }
}

/// What is said to a question.
#[derive(Clone, Copy, PartialEq, Eq, Debug)]
pub enum Said {
    /// 1, 2 or 0, by checks 1 and 2 alone.
    Verdict(Answer),
    /// What the request gave, and the CRC-32 of the net after it.
    Report(Report, u32),
}

impl Said {
    pub fn line(&self) -> String {
        match self {
            Said::Verdict(answer) => format!("V {}", answer.number()),
            Said::Report(report, crc) => format!("R {} {crc:08x}", report.line()),
        }
    }

    pub fn answer(&self) -> Answer {
        match self {
            Said::Verdict(answer) => *answer,
            Said::Report(report, _) => report.answer,
        }
    }
}

/// The script, the net and the base, as they stand between two items. Before
/// the first script and net all their bytes are 0.
#[derive(Clone, PartialEq, Eq, Debug)]
pub struct Bench {
    pub script: Vec<u8>,
    pub net: Vec<u8>,
    pub base: Vec<u8>,
}

impl Bench {
    pub fn bare() -> Bench {
        Bench {
            script: vec![0; SCRIPT_LENGTH],
            net: vec![0; NET_LENGTH],
            base: vec![0; NET_LENGTH],
        }
    }

    /// Takes one item; says something where it is a question.
    pub fn take(&mut self, item: Item) -> Option<Said> {
        match item {
            Item::Script(bytes) => self.script = bytes.to_vec(),
            Item::Net(bytes) => {
                self.net = bytes.to_vec();
                self.base = bytes.to_vec();
            }
            Item::Patch(at, byte) => self.patch(usize::from(at), byte),
            Item::Base => self.net.clone_from(&self.base),
            Item::Verdict => return Some(self.verdict()),
            Item::Request(bytes) => return Some(self.request(bytes)),
        }
        None
    }

    /// A place past the net's end changes nothing.
    fn patch(&mut self, at: usize, byte: u8) {
        if let Some(place) = self.net.get_mut(at) {
            *place = byte;
        }
    }

    fn verdict(&self) -> Said {
        let opened = open(&self.script, &self.net);
        Said::Verdict(opened.err().unwrap_or(Answer::Done))
    }

    fn request(&mut self, bytes: &[u8]) -> Said {
        let report = answer(&self.script, &mut self.net, bytes, &mut Random::new(0));
        Said::Report(report, crc32(&self.net))
    }
}

/// What is said to the questions of a stream, one after the other.
pub fn said(stream: &[u8]) -> impl Iterator<Item = Said> + '_ {
    let mut bench = Bench::bare();
    Items::of(stream).filter_map(move |item| bench.take(item))
}

/// A line for each question.
pub fn answer_trials(stream: &[u8]) -> String {
    said(stream).map(|said| said.line() + "\n").collect()
}
