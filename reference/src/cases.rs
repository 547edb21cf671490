//! Document 01's cases and printed example, as data: a net, requests, what
//! `rewind` prints, and the net it ends in where document 01 says so.

use crate::program::{rewind, Run};
use crate::random::Random;
use crate::text_read::make;

/// Script T.
pub const T: &str = include_str!("../examples/T.txt");
pub const A: &str = include_str!("../examples/A.txt");
pub const B: &str = include_str!("../examples/B.txt");
pub const C: &str = include_str!("../examples/C.txt");
pub const D: &str = include_str!("../examples/D.txt");
pub const PRINTED: &str = include_str!("../examples/printed.txt");

pub struct Case {
    /// The sentence of document 01 that it is about.
    pub sentence: &'static str,
    pub net: &'static str,
    pub requests: &'static str,
    pub prints: &'static str,
    /// The net at the end, where document 01 names it.
    pub ends: Option<&'static str>,
}

impl Case {
    /// Runs the case on script T.
    pub fn run(&self, order: u64) -> Run {
        let text = format!("{T}\n{}\nrequests\n{}", self.net, self.requests);
        let input = make(&text).expect("the cases are good text");
        rewind(&input, &mut Random::new(order))
    }

    /// Does it print what document 01 says, and end where it says?
    pub fn holds(&self, order: u64) -> bool {
        let run = self.run(order);
        let ends = self
            .ends
            .map(|text| make(text).expect("the cases are good text"));
        run.text() == self.prints && ends.is_none_or(|net| run.net == net)
    }
}

const NODE_8: &str = "net\npresent l0\nkey 0 live node 8 at l0";
const NODE_9_FITS: &str = "net\npresent l0\nkey 0 live node 9 at l0\nkey 1 tuple (5, l0) at l0";
const NODE_9_FITS_NOT: &str = "net\npresent l0\nkey 0 live node 9 at l0\nkey 1 tuple (5, 5) at l0";

pub const CASES: [Case; 19] = [
    Case {
        sentence: "the printed example: T, A, then four requests",
        net: A,
        requests: PRINTED,
        prints: "0 0 00000000\n0 0 00000000\n12 0 00000000\n0 2 00000001\n",
        ends: Some(A),
    },
    Case {
        sentence: "B: backward 1 gives 12",
        net: B,
        requests: "request 0 1 0 3 - -\nrequest 0 2 0 4 - -\nrequest 1 1 - - - -",
        prints: "0 0 00000000\n0 0 00000000\n12 0 00000000\n",
        ends: None,
    },
    Case {
        sentence: "B: rollback 1 gives B, undone 2, touched 6",
        net: B,
        requests: "request 0 1 0 3 - -\nrequest 0 2 0 4 - -\nrequest 2 1 - - - -",
        prints: "0 0 00000000\n0 0 00000000\n0 2 00000006\n",
        ends: Some(B),
    },
    Case {
        sentence: "B: rollback 2 gives undone 1, touched 4, key 1 still past",
        net: B,
        requests: "request 0 1 0 3 - -\nrequest 0 2 0 4 - -\nrequest 2 2 - - - -",
        prints: "0 0 00000000\n0 0 00000000\n0 1 00000004\n",
        ends: Some(
            "net\npresent l0 l1 l2\nkey 0 tuple (7) at l0\n\
             key 1 past node 4 at l1 first=3 used=0\nkey 2 live node 5 at l2\n\
             key 3 live node 0 at l1",
        ),
    },
    Case {
        sentence: "C: after both reads rollback 1 undoes 1; key 2 stays past",
        net: C,
        requests: "request 0 1 0 3 - -\nrequest 0 2 0 4 - -\nrequest 2 1 - - - -",
        prints: "0 0 00000000\n0 0 00000000\n0 1 00000002\n",
        ends: Some(
            "net\npresent l0 l1 l2\nkey 0 tuple (7) at l0\nkey 1 live node 4 at l1\n\
             key 2 past node 4 at l2 first=4 used=0\nkey 4 live node 0 at l2",
        ),
    },
    Case {
        sentence: "D: rollback 0 gives D, undone 2, touched 257",
        net: D,
        requests: "request 0 0 - 1 - 8\nrequest 0 1 - 2 3 -\nrequest 2 0 - - - -",
        prints: "0 0 00000000\n0 0 00000000\n0 2 00000101\n",
        ends: Some(D),
    },
    Case {
        sentence: "D: the two steps make locality 8 and a process there",
        net: D,
        requests: "request 0 0 - 1 - 8\nrequest 0 1 - 2 3 -",
        prints: "0 0 00000000\n0 0 00000000\n",
        ends: Some(
            "net\npresent l0 l8\nkey 0 past node 6 at l0 first=1 made=l8\n\
             key 1 past node 7 at l0 x0=l8 first=2 second=3\n\
             key 2 live node 0 at l0 x0=l8\nkey 3 live node 0 at l8 x0=l8",
        ),
    },
    Case {
        sentence: "D: first step with fresh locality 7: 11",
        net: D,
        requests: "request 0 0 - 1 - 7",
        prints: "11 0 00000000\n",
        ends: Some(D),
    },
    Case {
        sentence: "D: first step with fresh locality 31: done",
        net: D,
        requests: "request 0 0 - 1 - 31",
        prints: "0 0 00000000\n",
        ends: None,
    },
    Case {
        sentence: "D: first step with fresh locality 32: 3",
        net: D,
        requests: "request 0 0 - 1 - 32",
        prints: "3 0 00000000\n",
        ends: Some(D),
    },
    Case {
        sentence: "A, out with fresh 2 and 2: 11",
        net: A,
        requests: "request 0 0 - 2 2 -",
        prints: "11 0 00000000\n",
        ends: Some(A),
    },
    Case {
        sentence: "A, out with fresh 0 and 3: 11",
        net: A,
        requests: "request 0 0 - 0 3 -",
        prints: "11 0 00000000\n",
        ends: Some(A),
    },
    Case {
        sentence: "A, out with fresh 63 and 62: done",
        net: A,
        requests: "request 0 0 - 63 62 -",
        prints: "0 0 00000000\n",
        ends: Some(
            "net\npresent l0\nkey 0 past node 1 at l0 first=63 second=62\nkey 1 tuple (2) at l0\n\
             key 62 tuple (1) at l0\nkey 63 live node 2 at l0 r0=0",
        ),
    },
    Case {
        sentence: "A, out with fresh 64: 3",
        net: A,
        requests: "request 0 0 - 64 3 -",
        prints: "3 0 00000000\n",
        ends: Some(A),
    },
    Case {
        sentence: "node 8 at key 0, fresh 1, 2: done; both sides as the rule has them",
        net: NODE_8,
        requests: "request 0 0 - 1 2 -",
        prints: "0 0 00000000\n",
        ends: Some(
            "net\npresent l0\nkey 0 past node 8 at l0 first=1 second=2\n\
             key 1 live node 4 at l0\nkey 2 live node 5 at l0",
        ),
    },
    Case {
        sentence: "node 8 at key 0, fresh 1, 2: done; rollback 0: 5; backward 0: done",
        net: NODE_8,
        requests: "request 0 0 - 1 2 -\nrequest 2 0 - - - -\nrequest 1 0 - - - -",
        prints: "0 0 00000000\n5 0 00000000\n0 1 00000001\n",
        ends: Some(NODE_8),
    },
    Case {
        sentence: "node 9 against (5, locality 0): done",
        net: NODE_9_FITS,
        requests: "request 0 0 1 2 - -",
        prints: "0 0 00000000\n",
        ends: Some(
            "net\npresent l0\nkey 0 past node 9 at l0 first=2 used=1\nkey 1 tuple (5, l0) at l0\n\
             key 2 live node 0 at l0 x1=5 x2=l0",
        ),
    },
    Case {
        sentence: "node 9 against (5, 5): 10",
        net: NODE_9_FITS_NOT,
        requests: "request 0 0 1 2 - -",
        prints: "10 0 00000000\n",
        ends: Some(NODE_9_FITS_NOT),
    },
    Case {
        sentence: "1 to 5 bytes left over count as a request of wrong length",
        net: A,
        requests: "request 0 0 - 2 3 -\nrequest 1 0",
        prints: "0 0 00000000\n3 0 00000000\n",
        ends: None,
    },
];
