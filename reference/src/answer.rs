//! The answers of document 01's table, and what comes back with them.

use crate::names::Localities;

#[derive(Clone, Copy, PartialEq, Eq, PartialOrd, Ord, Hash, Debug)]
pub enum Answer {
    Done = 0,
    /// Script's length or form.
    BadScript = 1,
    /// Net not accepted.
    NotAccepted = 2,
    /// Request not 6 bytes; code, key or a place out of range.
    BadRequest = 3,
    /// Key not a live process (0, 3) or past process (1, 2).
    WrongRecord = 4,
    /// Code 0 at nil or roll; 2 at a split; 3 not at roll.
    WrongNode = 5,
    /// An unneeded place not 255, or a needed one 255.
    WrongPlaces = 6,
    /// Target or actual variable unset, target no locality, reference 255.
    Unset = 7,
    /// Target locality absent.
    TargetAbsent = 8,
    /// Tuple key not a live tuple at the target.
    NoTuple = 9,
    NoMatch = 10,
    /// A fresh key not free, both equal, fresh locality below 8 or present.
    NotFresh = 11,
    /// Code 1, and not undoable.
    NotUndoable = 12,
}

impl Answer {
    pub const COUNT: usize = 13;

    pub fn number(self) -> u8 {
        self as u8
    }
}

/// What a request gives: "any refusal leaves the net, with undone 0 and
/// touched 0".
#[derive(Clone, Copy, PartialEq, Eq, Debug)]
pub struct Report {
    pub answer: Answer,
    pub undone: u32,
    pub touched: Localities,
}

impl Report {
    pub fn refused(answer: Answer) -> Report {
        Report {
            answer,
            undone: 0,
            touched: Localities::default(),
        }
    }

    /// "Answer, undone in decimal, touched as 8 lower-case hex digits."
    pub fn line(&self) -> String {
        format!(
            "{} {} {:08x}",
            self.answer.number(),
            self.undone,
            self.touched.0
        )
    }
}
