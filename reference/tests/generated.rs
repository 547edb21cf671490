//! Small runs of `gen` and `check-claims`.

use reference::claims::Claims;
use reference::gen::Generator;
use reference::net_form::NET_LENGTH;
use reference::program::{rewind, Stream};
use reference::random::Random;
use reference::text_read::make;

#[test]
fn gen_reaches_every_answer_code_kind_rule_and_clause() {
    let mut generator = Generator::new(1);
    while generator.tally.lines < 80_000 {
        let stream = generator.stream();
        let printed = rewind(&stream.bytes, &mut Random::new(5)).text();
        assert_eq!(printed, stream.text(), "stream {}", generator.tally.streams);
    }
    let complaints = generator.tally.complaints();
    assert!(
        complaints.is_empty(),
        "{complaints:#?}\n{}",
        generator.tally.text()
    );
}

#[test]
fn gen_is_the_same_from_the_same_seed() {
    let streams = |seed| {
        let mut generator = Generator::new(seed);
        (0..40)
            .map(move |_| generator.stream().bytes)
            .collect::<Vec<_>>()
    };
    assert_eq!(streams(7), streams(7));
    assert_ne!(streams(7), streams(8));
}

#[test]
fn demand_3_the_order_of_undoing_changes_no_line_and_no_byte() {
    let mut generator = Generator::new(3);
    for _ in 0..150 {
        let stream = generator.stream();
        let first = rewind(&stream.bytes, &mut Random::new(0));
        let second = rewind(&stream.bytes, &mut Random::new(1));
        assert_eq!(first.text(), second.text());
        assert_eq!(first.net, second.net);
    }
}

#[test]
fn check_claims_refutes_none_and_tries_all() {
    let mut claims = Claims::new(1);
    while claims.nets < 600 {
        claims.try_one();
    }
    assert!(
        claims.refuted.is_empty(),
        "{:#?}",
        claims.refuted.iter().map(|r| &r.why).collect::<Vec<_>>()
    );
    assert!(claims.untried().is_empty(), "{:?}", claims.untried());
    assert!(claims.changed > 0 && claims.small > 0);
}

#[test]
fn demand_1_any_bytes_get_an_answer() {
    let mut random = Random::new(11);
    let mut generator = Generator::new(12);
    for _ in 0..300 {
        let mut bytes = generator.stream().bytes;
        for _ in 0..1 + random.below(3) {
            let at = random.below(bytes.len().max(1) as u64) as usize;
            if let Some(byte) = bytes.get_mut(at) {
                *byte = random.draw() as u8;
            }
        }
        let run = rewind(&bytes, &mut random);
        let length = Stream::cut(&bytes).net.len();
        assert!(run.reports.iter().all(|report| report.answer as u8 <= 12));
        assert!(length <= NET_LENGTH);
    }
}

/// READINGS: "62 is the most that occurs (one root tuple, one root process,
/// 62 reads)".
#[test]
fn undone_sixty_two_reads() {
    let mut text = "script\nnode 1 read(7)@l0 then 1\nnet\npresent l0\n\
                    key 0 tuple (7) at l0\nkey 1 live node 1 at l0\nrequests\n"
        .to_string();
    for key in 1..63 {
        text += &format!("request 0 {key} 0 {} - -\n", key + 1);
    }
    text += "request 2 1 - - - -\n";
    let run = rewind(&make(&text).expect("good text"), &mut Random::new(0));
    assert_eq!(
        run.reports.last().map(|report| report.line()),
        Some("0 62 00000001".to_string())
    );
    assert!(run.reports[..62]
        .iter()
        .all(|report| report.line() == "0 0 00000000"));
}
