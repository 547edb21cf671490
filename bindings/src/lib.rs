//! The calls of rewind for Rust: steps forward and backward over the record of
//! a move, and its rollback, on byte strings.
//!
//! Every function takes any bytes of any length and has one outcome for them,
//! which document 01 fixes. The code behind them is a static library that was
//! proved to meet that; what is written here only passes slices on and takes a
//! word apart. Nothing is kept between calls, nothing is allocated, and any
//! number of threads may call at once.
//!
//! ```
//! let mut net = [0; rewind::NET_LENGTH];
//! let told = rewind::call(b"no script", &mut net, &[0; rewind::REQUEST_LENGTH]);
//! assert_eq!(told.answer, rewind::Answer::BadScript);
//! assert_eq!(net, [0; rewind::NET_LENGTH]);
//! ```

mod library;

/// The length of a script; one of another length is refused with answer 1.
pub const SCRIPT_LENGTH: usize = 2064;

/// The length of a net; one of another length is refused with answer 2.
pub const NET_LENGTH: usize = 3600;

/// The length of a request; one of another length is refused with answer 3.
pub const REQUEST_LENGTH: usize = 6;

/// The mark for none in a request.
pub const NONE: u8 = 255;

/// Document 01's answers, in the order in which they are checked.
#[derive(Clone, Copy, PartialEq, Eq, PartialOrd, Ord, Hash, Debug)]
pub enum Answer {
    Done = 0,
    /// The script's length or form.
    BadScript = 1,
    /// The net is not accepted.
    BadNet = 2,
    /// The request's length, or a byte out of range.
    BadRequest = 3,
    /// The key is no live process (codes 0 and 3), or no past one (1 and 2).
    WrongProcess = 4,
    /// The process's node is of a kind that the code has nothing to do with.
    WrongNode = 5,
    /// A place that is not needed is given, or a needed one is none.
    WrongPlaces = 6,
    /// The target or an actual variable is unset, the target is no locality,
    /// or the roll's reference is none.
    Unset = 7,
    /// The target locality is absent.
    TargetAbsent = 8,
    /// The tuple key is no live tuple at the target.
    NoTuple = 9,
    NoMatch = 10,
    /// A fresh key is not free, both are equal, or the fresh locality is below
    /// 8 or present.
    NotFresh = 11,
    /// Backward, and something depends on the step.
    NotUndoable = 12,
}

impl Answer {
    /// All of them, by their numbers.
    pub const ALL: [Answer; 13] = [
        Answer::Done,
        Answer::BadScript,
        Answer::BadNet,
        Answer::BadRequest,
        Answer::WrongProcess,
        Answer::WrongNode,
        Answer::WrongPlaces,
        Answer::Unset,
        Answer::TargetAbsent,
        Answer::NoTuple,
        Answer::NoMatch,
        Answer::NotFresh,
        Answer::NotUndoable,
    ];

    /// Its number in document 01's table.
    pub fn number(self) -> u8 {
        self as u8
    }
}

/// What a call tells beside the net.
#[derive(Clone, Copy, PartialEq, Eq, Debug)]
pub struct Told {
    pub answer: Answer,
    /// How many events were undone; 0 on refusal.
    pub undone: u8,
    /// Bit n where a slot at locality n became free; 0 on refusal.
    pub touched: u32,
}

/// What a question gives.
#[derive(Clone, Copy, PartialEq, Eq, Debug)]
pub struct Found {
    pub answer: Answer,
    /// The key or the locality: none on refusal, and where none is left.
    pub name: Option<u8>,
}

/// One request: codes 0 forward, 1 backward, 2 rollback, 3 roll. Where the
/// answer is [`Answer::Done`] the net is the one after it; with any other
/// answer no byte of it is changed.
pub fn call(script: &[u8], net: &mut [u8], request: &[u8]) -> Told {
    let word = library::call(script, net, request);
    Told {
        answer: word.answer(),
        undone: word.number(),
        touched: word.touched(),
    }
}

/// The finder: the least key of a live tuple that the process with this key,
/// at an in or a read, would meet. Any byte may be given as the key.
pub fn find(script: &[u8], net: &[u8], key: u8) -> Found {
    found(library::find(script, net, key))
}

/// The least free key.
pub fn free_key(script: &[u8], net: &[u8]) -> Found {
    found(library::free_key(script, net))
}

/// The least absent locality from 8.
pub fn free_locality(script: &[u8], net: &[u8]) -> Found {
    found(library::free_locality(script, net))
}

fn found(word: library::Word) -> Found {
    Found {
        answer: word.answer(),
        name: Some(word.number()).filter(|&name| name != NONE),
    }
}
