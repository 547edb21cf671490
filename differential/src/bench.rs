//! Asks both and compares.

use crate::question::{ask_library, ask_second, Question, Said};
use crate::tally::Tally;
use reference::random::Random;
use std::fmt;

/// Input on which the two differ.
#[derive(Clone, PartialEq, Eq, Debug)]
pub struct Difference {
    pub script: Vec<u8>,
    /// The net before the question.
    pub net: Vec<u8>,
    pub question: Question,
    pub library: Outcome,
    pub second: Outcome,
    /// The first byte in which the nets after it differ.
    pub net_differs_at: Option<usize>,
}

impl fmt::Display for Difference {
    fn fmt(&self, out: &mut fmt::Formatter) -> fmt::Result {
        writeln!(out, "{}", self.question)?;
        writeln!(out, "  static library: {}", self.library.0)?;
        writeln!(out, "  second program: {}", self.second.0)?;
        if let Some(at) = self.net_differs_at {
            writeln!(out, "  the nets after it differ from byte {at} on")?;
        }
        Ok(())
    }
}

/// What one of the two said, and the net after it.
pub type Outcome = (Said, Vec<u8>);

/// What both say; or that they differ.
pub fn ask_both(
    script: &[u8],
    net: &[u8],
    question: &Question,
    order: &mut Random,
) -> Result<Outcome, Box<Difference>> {
    let mut library_net = net.to_vec();
    let mut second_net = net.to_vec();
    let by_library = ask_library(script, &mut library_net, question);
    let by_second = ask_second(script, &mut second_net, question, order);
    let outcomes = ((by_library, library_net), (by_second, second_net));
    compare(script, net, question, outcomes)
}

fn compare(
    script: &[u8],
    net: &[u8],
    question: &Question,
    (library, second): (Outcome, Outcome),
) -> Result<Outcome, Box<Difference>> {
    if library == second {
        return Ok(second);
    }
    Err(Box::new(Difference {
        script: script.to_vec(),
        net: net.to_vec(),
        question: question.clone(),
        net_differs_at: first_difference(&library.1, &second.1),
        library,
        second,
    }))
}

fn first_difference(one: &[u8], other: &[u8]) -> Option<usize> {
    let common = one.len().min(other.len());
    let longer = (one.len() != other.len()).then_some(common);
    (0..common).find(|&at| one[at] != other[at]).or(longer)
}

/// A script and a net to which questions are put. What differs is kept, and
/// the second program's net is gone on from.
pub struct Bench {
    pub script: Vec<u8>,
    pub net: Vec<u8>,
    pub tally: Tally,
    pub differences: Vec<Difference>,
    order: Random,
}

impl Bench {
    pub fn new(seed: u64) -> Bench {
        Bench {
            script: Vec::new(),
            net: Vec::new(),
            tally: Tally::default(),
            differences: Vec::new(),
            order: Random::new(seed),
        }
    }

    pub fn ask(&mut self, question: &Question) -> Said {
        let asked = ask_both(&self.script, &self.net, question, &mut self.order);
        let (said, after) = asked.unwrap_or_else(|difference| {
            let second = difference.second.clone();
            self.differences.push(*difference);
            second
        });
        self.tally.count(question, &said);
        self.net = after;
        said
    }

    /// A question after which the net is as before.
    pub fn ask_and_restore(&mut self, question: &Question) -> Said {
        let before = self.net.clone();
        let said = self.ask(question);
        self.net = before;
        said
    }

    pub fn helpers(&mut self) {
        self.ask(&Question::FreeKey);
        self.ask(&Question::FreeLocality);
    }
}

#[cfg(test)]
mod tests {
    use super::*;

    const SAID: Said = Said {
        answer: 0,
        number: 2,
        touched: 1,
    };

    fn compared(said: Said, net: &[u8]) -> Result<Outcome, Box<Difference>> {
        let second = (SAID, vec![1, 2, 3]);
        compare(&[], &[], &Question::FreeKey, ((said, net.to_vec()), second))
    }

    fn differs_at(said: Said, net: &[u8]) -> Option<usize> {
        compared(said, net).unwrap_err().net_differs_at
    }

    #[test]
    fn the_same_is_no_difference() {
        assert_eq!(compared(SAID, &[1, 2, 3]), Ok((SAID, vec![1, 2, 3])));
    }

    #[test]
    fn every_number_is_compared() {
        let others = [
            Said { answer: 1, ..SAID },
            Said { number: 3, ..SAID },
            Said { touched: 0, ..SAID },
        ];
        for said in others {
            assert_eq!(differs_at(said, &[1, 2, 3]), None);
        }
    }

    #[test]
    fn every_byte_and_the_length_are_compared() {
        assert_eq!(differs_at(SAID, &[0, 2, 3]), Some(0));
        assert_eq!(differs_at(SAID, &[1, 2, 4]), Some(2));
        assert_eq!(differs_at(SAID, &[1, 2]), Some(2));
        assert_eq!(differs_at(SAID, &[1, 2, 3, 0]), Some(3));
    }
}
