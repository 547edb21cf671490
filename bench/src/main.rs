//! Prints how many requests a second `rewind` answers beside the second program
//! and the yardstick on the same streams, how long a call on lent bytes takes
//! beside the yardstick's, what it costs by the number of past events, how much
//! stack it takes, and what the walks are made up of. It asserts nothing.
//!
//! In the columns, "faster" is how many times as fast the proved program is as
//! the second one, and "slower" how many times the yardstick's time it takes.

mod images;
mod stack;
mod walk;
mod yardstick;

use images::{search, Images};
use reference::program::rewind as second_rewind;
use reference::random::Random;
use rewind::call;
use stack::stack_of_calls;
use std::fs::File;
use std::hint::black_box;
use std::path::{Path, PathBuf};
use std::process::{Command, Stdio};
use std::time::Instant;
use walk::{walk, Walked};
use yardstick::{file, Yardstick};

const PROGRAM: &str = concat!(env!("CARGO_MANIFEST_DIR"), "/../crates/rewind/out/rewind");
/// Requests of a stream for `rewind` and the yardstick, and for the second
/// program, which reads and accepts its images anew for each.
const LONG: usize = 2_000_000;
const SHORT: usize = 20_000;
/// Requests of the walk that is a stream, and of the one that is made by calls.
const WALK: usize = 200_000;
const WALK_OF_CALLS: usize = 1_000;
/// Calls of one measurement, and as many more as it takes to end where they
/// began.
const CALLS: usize = 1_000;
/// The yardstick does so many times as much in one measurement, so that it is
/// watched for about as long as the proved program.
const RUNS_OF_YARDSTICK: usize = 4;
const CALLS_OF_YARDSTICK: usize = 2;
/// Measurements are short, many, and taken by turns, and the best of each
/// counts: what else runs on the machine only adds.
const ROUNDS_OF_STREAMS: usize = 20;
const ROUNDS_OF_CALLS: usize = 200;

/// `rewind`, or another that does the same.
struct Program<'a> {
    path: &'a Path,
    words: &'a [&'a str],
}

impl Program<'_> {
    fn on(&self, stream: &Path) -> Command {
        let mut command = Command::new(self.path);
        let input = File::open(stream).expect("the stream");
        command.args(self.words).stdin(input);
        command
    }

    fn lines(&self, stream: &Path) -> String {
        let output = self.on(stream).output();
        let output = output.expect("rt run in crates/rewind builds it");
        String::from_utf8_lossy(&output.stdout).into_owned()
    }

    /// Seconds from its start to its end, on average of some runs; its input is
    /// a file, and nobody reads its output.
    fn seconds(&self, stream: &Path, runs: usize) -> f64 {
        let began = Instant::now();
        for _ in 0..runs {
            let status = self.on(stream).stdout(Stdio::null()).status();
            status.expect("the program runs");
        }
        began.elapsed().as_secs_f64() / runs as f64
    }
}

/// What was least, of the proved program and of the yardstick where there is
/// one.
#[derive(Clone, Copy)]
struct Least {
    proved: f64,
    yardstick: Option<f64>,
}

impl Least {
    const NONE: Least = Least {
        proved: f64::INFINITY,
        yardstick: None,
    };

    fn take(&mut self, proved: f64, yardstick: Option<f64>) {
        let other = self.yardstick.unwrap_or(f64::INFINITY);
        self.proved = self.proved.min(proved);
        self.yardstick = yardstick.map(|figure| figure.min(other));
    }

    /// How many times the yardstick's time the proved program takes.
    fn slower(&self) -> Option<f64> {
        self.yardstick.map(|yardstick| self.proved / yardstick)
    }
}

/// The least of each, measured round after round, so that the measurements of
/// one are spread over the whole time.
fn least_of<T>(
    rounds: usize,
    these: &[T],
    measure: impl Fn(&T) -> (f64, Option<f64>),
) -> Vec<Least> {
    let mut least = vec![Least::NONE; these.len()];
    for _ in 0..rounds {
        for (it, least) in these.iter().zip(&mut least) {
            let (proved, yardstick) = measure(it);
            least.take(proved, yardstick);
        }
    }
    least
}

/// A figure in its column, or a dash.
fn column(figure: Option<f64>, width: usize, places: usize) -> String {
    match figure {
        Some(figure) => format!("{figure:width$.places$}"),
        None => format!("{:>width$}", "-"),
    }
}

/// What is measured: a net, and requests after which it is as it was.
#[derive(Clone, Copy)]
struct Sort<'a> {
    name: &'a str,
    images: &'a Images,
    unit: &'a [u8],
}

fn sort<'a>(name: &'a str, images: &'a Images, unit: &'a [u8]) -> Sort<'a> {
    Sort { name, images, unit }
}

fn walk_sort(walked: &Walked) -> Sort<'_> {
    sort("a walk", &walked.images, &walked.requests)
}

impl Sort<'_> {
    fn head(&self) -> String {
        let (records, events) = (self.images.records(), self.images.events());
        format!("{:34} {records:7} {events:6}", self.name)
    }

    /// Its stream of so many requests, as a file of that name too.
    fn stream(&self, name: &str, requests: usize) -> Stream {
        let images = [&self.images.script[..], &self.images.net];
        let unit = self.unit.chunks(6).cycle().take(requests);
        let bytes: Vec<u8> = images.into_iter().chain(unit).flatten().copied().collect();
        Stream {
            requests: requests as f64,
            path: file(name, &bytes),
            bytes,
        }
    }

    /// How many calls are a measurement: whole turns of the unit.
    fn calls(&self) -> usize {
        let unit = self.unit.len() / 6;
        CALLS.div_ceil(unit) * unit
    }
}

struct Stream {
    requests: f64,
    path: PathBuf,
    bytes: Vec<u8>,
}

/// Rows of requests a second.
fn compare_programs(sorts: &[Sort], yardstick: Option<&Yardstick>) {
    let proved = Program {
        path: Path::new(PROGRAM),
        words: &[],
    };
    let yardstick = yardstick.map(|yardstick| Program {
        path: &yardstick.program,
        words: &["rewind"],
    });
    let long = |number: usize| sorts[number].stream(&format!("bench.{number}"), LONG);
    let streams: Vec<Stream> = (0..sorts.len()).map(long).collect();
    let least = least_of(ROUNDS_OF_STREAMS, &streams, |stream| {
        let other = yardstick.as_ref();
        let other = other.map(|it| it.seconds(&stream.path, RUNS_OF_YARDSTICK));
        (proved.seconds(&stream.path, 1), other)
    });
    for ((sort, stream), least) in sorts.iter().zip(&streams).zip(&least) {
        let short = sort.stream("bench.short", SHORT);
        let (second, second_lines) = second_speed(&short.bytes);
        let mut programs = [Some(&proved), yardstick.as_ref()].into_iter().flatten();
        let same = programs.all(|program| program.lines(&short.path) == second_lines);
        let speed = |seconds: f64| stream.requests / seconds;
        println!(
            "{} {:11.0} {second:8.0} {:8.0} {} {}{}",
            sort.head(),
            speed(least.proved),
            speed(least.proved) / second,
            column(least.yardstick.map(speed), 11, 0),
            column(least.slower(), 7, 1),
            if same { "" } else { "  THEIR LINES DIFFER" }
        );
    }
}

/// Rows of microseconds of a call.
fn compare_calls(sorts: &[Sort], yardstick: Option<&Yardstick>) {
    let least = least_of(ROUNDS_OF_CALLS, sorts, |sort| {
        let more = CALLS_OF_YARDSTICK * sort.calls();
        let time = |it: &Yardstick| it.call_time(sort.images, sort.unit, more);
        (call_time(sort), yardstick.map(time))
    });
    for (sort, least) in sorts.iter().zip(&least) {
        println!(
            "{} {:11.2} {} {}",
            sort.head(),
            least.proved,
            column(least.yardstick, 9, 2),
            column(least.slower(), 7, 1)
        );
    }
}

/// Requests a second of the second program, and what it prints.
fn second_speed(input: &[u8]) -> (f64, String) {
    let began = Instant::now();
    let run = second_rewind(input, &mut Random::new(1));
    let speed = run.reports.len() as f64 / began.elapsed().as_secs_f64();
    (speed, run.text())
}

/// Microseconds of a call of the static library.
fn call_time(sort: &Sort) -> f64 {
    let mut net = sort.images.net.clone();
    let calls = sort.calls();
    let began = Instant::now();
    for request in sort.unit.chunks(6).cycle().take(calls) {
        black_box(call(&sort.images.script, &mut net, request));
    }
    began.elapsed().as_secs_f64() * 1e6 / calls as f64
}

/// A net with about so many past events.
fn with_events(events: usize) -> Images {
    let near = |i: &Images| (i.events().abs_diff(events) <= 1).then_some(());
    search(4, near).0
}

fn main() {
    let compiled = Yardstick::compiled();
    match &compiled {
        Ok(yardstick) => println!("yardstick: {}, -O3", yardstick.compiler),
        Err(why) => println!("no yardstick, for want of a C compiler ({why})"),
    }
    let yardstick = compiled.as_ref().ok();
    let half = |images: &Images| (30..=34).contains(&images.records()) && images.events() >= 10;
    let full = |images: &Images| images.records() >= 60 && images.events() >= 20;
    let (half_full, pair) = search(1, |i| half(i).then(|| i.there_and_back())?);
    let (nearly_full, full_pair) = search(2, |i| full(i).then(|| i.there_and_back())?);
    let (deep, rolled) = search(3, |i| i.rollback_and_again(30));
    let refused = [9, 0, 0, 0, 0, 0];
    let (walked, called) = (walk(5, WALK), walk(6, WALK_OF_CALLS));
    let sorts = [
        sort("backward and forward, half full", &half_full, &pair),
        sort(
            "backward and forward, nearly full",
            &nearly_full,
            &full_pair,
        ),
        sort("a rollback of 30 and 30 forward", &deep, &rolled),
        sort("refused with 3, half full", &half_full, &refused),
    ];
    let streams: Vec<Sort> = sorts.into_iter().chain([walk_sort(&walked)]).collect();

    println!("\nrequests a second                  records events      rewind   second   faster   yardstick  slower");
    compare_programs(&streams, yardstick);
    println!("the walk: {}", walked.made_up);
    let by_events: Vec<Images> = (0..=60).step_by(10).map(with_events).collect();
    let refusals = by_events
        .iter()
        .map(|i| sort("refused with 3", i, &refused));
    let calls = sorts.into_iter().chain([walk_sort(&called)]);
    let calls: Vec<Sort> = calls.chain(refusals).collect();
    println!("\nmicroseconds of a call             records events     library yardstick  slower");
    compare_calls(&calls, yardstick);
    println!("the walk: {}", called.made_up);
    println!("\nbytes of stack of a call           records events     library");
    for sort in &streams {
        println!(
            "{} {:11}",
            sort.head(),
            stack_of_calls(sort.images, sort.unit)
        );
    }
}
