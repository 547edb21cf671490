//! The program `rewind` of document 01: one script, one net, then requests in;
//! a line each out.

use crate::answer::Report;
use crate::machine::{answer, open};
use crate::net_form::NET_LENGTH;
use crate::random::Random;
use crate::request::REQUEST_LENGTH;
use crate::script_form::SCRIPT_LENGTH;

/// The input cut into script, net and requests; short input gives short
/// parts.
pub struct Stream<'a> {
    pub script: &'a [u8],
    pub net: &'a [u8],
    pub requests: &'a [u8],
}

impl<'a> Stream<'a> {
    pub fn cut(input: &'a [u8]) -> Stream<'a> {
        let (script, rest) = input.split_at(input.len().min(SCRIPT_LENGTH));
        let (net, requests) = rest.split_at(rest.len().min(NET_LENGTH));
        Stream {
            script,
            net,
            requests,
        }
    }

    /// "1 to 5 bytes left over count as a request of wrong length."
    pub fn requests(&self) -> impl Iterator<Item = &'a [u8]> {
        self.requests.chunks(REQUEST_LENGTH)
    }
}

/// What `rewind` prints, and the net it ends with.
pub struct Run {
    pub reports: Vec<Report>,
    pub net: Vec<u8>,
}

impl Run {
    pub fn text(&self) -> String {
        self.reports
            .iter()
            .map(|report| report.line() + "\n")
            .collect()
    }
}

/// "A bad script or net prints one such line and ends."
pub fn rewind(input: &[u8], order: &mut Random) -> Run {
    let stream = Stream::cut(input);
    let mut net = stream.net.to_vec();
    if let Err(bad) = open(stream.script, &net) {
        return Run {
            reports: vec![Report::refused(bad)],
            net,
        };
    }
    let reports = stream
        .requests()
        .map(|request| answer(stream.script, &mut net, request, order))
        .collect();
    Run { reports, net }
}
