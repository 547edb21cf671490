//! What can be asked of a script and a net, and what the static library and
//! the second program say to it.

use reference::answer::Answer;
use reference::machine::{answer, find, least_absent_locality, least_free_key};
use reference::random::Random;
use rewind::Found;
use std::fmt;

#[derive(Clone, PartialEq, Eq, Debug)]
pub enum Question {
    /// What does this request give? The net is then what the call left.
    Call(Vec<u8>),
    /// What does the finder say to this key?
    Find(u8),
    FreeKey,
    FreeLocality,
}

impl fmt::Display for Question {
    fn fmt(&self, out: &mut fmt::Formatter) -> fmt::Result {
        match self {
            Question::Call(request) => write!(out, "call with request {request:?}"),
            Question::Find(key) => write!(out, "finder for key {key}"),
            Question::FreeKey => write!(out, "least free key"),
            Question::FreeLocality => write!(out, "least absent locality"),
        }
    }
}

/// What is said to a question.
#[derive(Clone, Copy, PartialEq, Eq, Debug)]
pub struct Said {
    /// Its number in document 01's table.
    pub answer: u8,
    /// Undone, or the name that was found.
    pub number: u32,
    /// 0 but for a call.
    pub touched: u32,
}

impl fmt::Display for Said {
    fn fmt(&self, out: &mut fmt::Formatter) -> fmt::Result {
        let Said {
            answer,
            number,
            touched,
        } = self;
        write!(
            out,
            "answer {answer}, number {number}, touched {touched:08x}"
        )
    }
}

/// The static library.
pub fn ask_library(script: &[u8], net: &mut [u8], question: &Question) -> Said {
    match question {
        Question::Call(request) => {
            let told = rewind::call(script, net, request);
            Said {
                answer: told.answer.number(),
                number: told.undone.into(),
                touched: told.touched,
            }
        }
        Question::Find(key) => library_found(rewind::find(script, net, *key)),
        Question::FreeKey => library_found(rewind::free_key(script, net)),
        Question::FreeLocality => library_found(rewind::free_locality(script, net)),
    }
}

fn library_found(found: Found) -> Said {
    name_said(found.answer.number(), found.name.unwrap_or(rewind::NONE))
}

/// The second program; `order` chooses how a rollback takes its steps.
pub fn ask_second(
    script: &[u8],
    net: &mut Vec<u8>,
    question: &Question,
    order: &mut Random,
) -> Said {
    match question {
        Question::Call(request) => {
            let report = answer(script, net, request, order);
            Said {
                answer: report.answer.number(),
                number: report.undone,
                touched: report.touched.0,
            }
        }
        Question::Find(key) => second_found(find(script, net, *key)),
        Question::FreeKey => second_found(least_free_key(script, net)),
        Question::FreeLocality => second_found(least_absent_locality(script, net)),
    }
}

fn second_found((answer, name): (Answer, u8)) -> Said {
    name_said(answer.number(), name)
}

fn name_said(answer: u8, name: u8) -> Said {
    Said {
        answer,
        number: name.into(),
        touched: 0,
    }
}
