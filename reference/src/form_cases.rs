//! Cases of the form alone, for another program to be run on: a script and a
//! net that have the form, each with one byte changed or with another length,
//! and whether it has the form still.

use crate::net_form::{broken_net_rules, NetRule, NET_LENGTH, SLOTS_AT, SLOT_LENGTH};
use crate::script_form::{broken_script_rules, ScriptRule, NODES_AT, NODE_LENGTH, SCRIPT_LENGTH};
use crate::text_read::make;
use std::collections::BTreeSet;
use std::fmt::Debug;
use std::ops::Range;

/// The script and the net that are changed.
pub const BASE: &str = include_str!("../examples/form_cases.txt");

/// Values around the boundaries of the form: for the head, and for the first
/// part of each kind.
pub const VALUES: [u8; 19] = [
    0, 1, 2, 3, 4, 5, 6, 7, 8, 9, 31, 32, 33, 63, 64, 65, 128, 254, 255,
];

/// For the other parts.
pub const FEWER_VALUES: [u8; 13] = [0, 1, 2, 3, 4, 5, 7, 8, 31, 32, 63, 64, 255];

/// Which of the two images.
#[derive(Clone, Copy, PartialEq, Eq, Debug)]
pub enum Image {
    Script,
    Net,
}

impl Image {
    fn length(self) -> usize {
        match self {
            Image::Script => SCRIPT_LENGTH,
            Image::Net => NET_LENGTH,
        }
    }

    fn head_length(self) -> usize {
        match self {
            Image::Script => NODES_AT,
            Image::Net => SLOTS_AT,
        }
    }

    /// A part is a node or a slot; its first byte is its kind, and kind 0 is
    /// nil or free.
    fn part_length(self) -> usize {
        match self {
            Image::Script => NODE_LENGTH,
            Image::Net => SLOT_LENGTH,
        }
    }
}

/// What is done to the image.
#[derive(Clone, Copy, PartialEq, Eq, Debug)]
pub enum Change {
    /// Only so many bytes of the image followed by one 0 byte.
    Length(u16),
    /// The byte there is set to this value.
    Byte(u16, u8),
}

#[derive(Clone, Copy, PartialEq, Eq, Debug)]
pub struct FormCase {
    pub image: Image,
    pub change: Change,
}

impl FormCase {
    pub fn letter(self) -> char {
        match (self.image, self.change) {
            (Image::Script, Change::Byte(..)) => 'S',
            (Image::Script, Change::Length(_)) => 's',
            (Image::Net, Change::Byte(..)) => 'N',
            (Image::Net, Change::Length(_)) => 'n',
        }
    }

    /// The number and the value that follow the letter.
    pub fn number_and_value(self) -> (u16, u8) {
        match self.change {
            Change::Length(length) => (length, 0),
            Change::Byte(at, value) => (at, value),
        }
    }

    fn changed(self, image: &[u8]) -> Vec<u8> {
        let mut bytes = image.to_vec();
        match self.change {
            Change::Byte(at, value) => bytes[usize::from(at)] = value,
            Change::Length(length) => {
                bytes.push(0);
                bytes.truncate(usize::from(length));
            }
        }
        bytes
    }
}

/// The two images, and the cases in order.
pub struct FormCases {
    pub script: Vec<u8>,
    pub net: Vec<u8>,
    pub cases: Vec<FormCase>,
}

impl FormCases {
    pub fn of_base() -> FormCases {
        let mut script = make(BASE).expect("the base is good text");
        let net = script.split_off(SCRIPT_LENGTH);
        let mut cases = Vec::new();
        cases.extend(lengths(Image::Script));
        cases.extend(lengths(Image::Net));
        cases.extend(bytes_set(Image::Script, &script));
        cases.extend(bytes_set(Image::Net, &net));
        FormCases { script, net, cases }
    }

    /// Script, net, and four bytes for each case.
    pub fn input(&self) -> Vec<u8> {
        let mut input = [self.script.as_slice(), self.net.as_slice()].concat();
        for case in &self.cases {
            let (number, value) = case.number_and_value();
            let [low, high] = number.to_le_bytes();
            input.extend([case.letter() as u8, low, high, value]);
        }
        input
    }

    /// A line for each case.
    pub fn output(&self) -> String {
        let line = |&case: &FormCase| {
            let letter = case.letter();
            let (number, value) = case.number_and_value();
            let verdict = if self.has_form(case) {
                "form"
            } else {
                "no form"
            };
            format!("{letter} {number} {value} {verdict}\n")
        };
        self.cases.iter().map(line).collect()
    }

    fn has_form(&self, case: FormCase) -> bool {
        match case.image {
            Image::Script => self.script_rules(case).is_empty(),
            Image::Net => self.net_rules(case).is_empty(),
        }
    }

    /// The rules that a case of the script breaks.
    fn script_rules(&self, case: FormCase) -> Vec<ScriptRule> {
        let broken = broken_script_rules(&case.changed(&self.script));
        broken.iter().map(|broken| broken.rule).collect()
    }

    /// The rules that a case of the net breaks.
    fn net_rules(&self, case: FormCase) -> Vec<NetRule> {
        let broken = broken_net_rules(&case.changed(&self.net));
        broken.iter().map(|broken| broken.rule).collect()
    }

    /// How many cases there are, and how many break each rule.
    pub fn text(&self) -> String {
        let of = |image: Image| {
            let cases = self.cases.iter().copied();
            cases.filter(move |case| case.image == image)
        };
        let script: Vec<_> = of(Image::Script).map(|c| self.script_rules(c)).collect();
        let net: Vec<_> = of(Image::Net).map(|c| self.net_rules(c)).collect();
        format!(
            "cases {}\n\n{}\n{}",
            self.cases.len(),
            counts("script", &ScriptRule::ALL, &script),
            counts("net", &NetRule::ALL, &net)
        )
    }
}

/// The lengths 0 and 1, one short, the exact length, one long.
fn lengths(image: Image) -> impl Iterator<Item = FormCase> {
    let exact = image.length() as u16;
    let lengths = [0, 1, exact - 1, exact, exact + 1];
    let case = move |length| FormCase {
        image,
        change: Change::Length(length),
    };
    lengths.into_iter().map(case)
}

/// Every byte of the head and of every part in use, one nil node or free slot
/// included.
fn bytes_set(image: Image, bytes: &[u8]) -> Vec<FormCase> {
    let mut cases = each_byte(image, 0..image.head_length(), &VALUES);
    let mut kinds_seen = BTreeSet::new();
    for start in (image.head_length()..image.length()).step_by(image.part_length()) {
        let part = start..start + image.part_length();
        let kind = bytes[start];
        if kinds_seen.insert(kind) {
            cases.extend(each_byte(image, part, &VALUES));
        } else if kind != 0 {
            cases.extend(each_byte(image, part, &FEWER_VALUES));
        }
    }
    cases
}

fn each_byte(image: Image, range: Range<usize>, values: &[u8]) -> Vec<FormCase> {
    let at_each = |at: usize| {
        values.iter().map(move |&value| FormCase {
            image,
            change: Change::Byte(at as u16, value),
        })
    };
    range.flat_map(at_each).collect()
}

/// How many of the cases have the form, break each rule, and break it alone.
fn counts<R: Copy + PartialEq + Debug>(image: &str, rules: &[R], cases: &[Vec<R>]) -> String {
    let form = cases.iter().filter(|broken| broken.is_empty()).count();
    let total = cases.len();
    let mut text = format!("{image}: {total} cases, {form} with the form\n");
    text += &format!("{:<20} {:>7} {:>7}\n", "rule", "broken", "alone");
    for &rule in rules {
        let broken = cases.iter().filter(|broken| broken.contains(&rule)).count();
        let alone = cases.iter().filter(|broken| **broken == [rule]).count();
        let name = format!("{rule:?}");
        text += &format!("{name:<20} {broken:>7} {alone:>7}\n");
    }
    text
}
