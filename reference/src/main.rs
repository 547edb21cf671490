//! The command line of the second program: see docs/REFERENCE.md.
#![forbid(unsafe_code)]

use reference::accept::{accept, Refusal};
use reference::against::against;
use reference::call_stream::calls;
use reference::calls::answer_calls;
use reference::claims::Claims;
use reference::dot::dot;
use reference::form_cases::FormCases;
use reference::gen::Generator;
use reference::machine::{find, least_absent_locality, least_free_key};
use reference::names::Key;
use reference::net::Net;
use reference::program::{rewind, Stream};
use reference::random::Random;
use reference::script::Script;
use reference::text_read::make;
use reference::text_write::{net_form_verdict, script_form_verdict, show};
use reference::trial_stream::trials;
use reference::trials::answer_trials;
use std::io::{self, Read, Write};
use std::process::ExitCode;

const USAGE: &str = "usage:
  reference rewind [--order SEED] [--net FILE]        script, net, requests in; a line each out
  reference show [--script FILE] [NET]                an image as text
  reference dot [--script FILE] [--mark KEY] [NET]    dependence as Graphviz text
  reference make [TEXT]                               images from text
  reference gen SEED COUNT [--out DIR]                streams with COUNT lines or more
  reference against SEED COUNT [--out DIR] PROGRAM... another rewind on the same streams
  reference check-claims SEED COUNT [--out DIR]       tries to refute document 01 on COUNT nets
  reference check-form script|net FILE                the form alone
  reference form-cases --input FILE --output FILE     cases of the form, and what each is
  reference trials SEED                               a stream of trials
  reference answer-trials                             a stream of trials in; a line for each question
  reference calls SEED                                a stream of calls on bytes
  reference answer-calls                              a stream of calls in; a line for each question
  reference find [KEY]                                script and net in; key, answer, tuple key out
  reference free-key | free-locality                  script and net in; answer and name out
An image that is not named is read from standard input.
";

fn main() -> ExitCode {
    let arguments: Vec<String> = std::env::args().skip(1).collect();
    let words: Vec<&str> = arguments.iter().map(String::as_str).collect();
    match run(&words) {
        Ok(output) => write_out(&output),
        Err(message) => {
            eprintln!("{message}");
            ExitCode::FAILURE
        }
    }
}

/// A reader that has gone away is no error.
fn write_out(output: &[u8]) -> ExitCode {
    match io::stdout().write_all(output) {
        Ok(()) => ExitCode::SUCCESS,
        Err(error) if error.kind() == io::ErrorKind::BrokenPipe => ExitCode::SUCCESS,
        Err(_) => ExitCode::FAILURE,
    }
}

type Output = Result<Vec<u8>, String>;

fn run(words: &[&str]) -> Output {
    let mut options = Options::of(words)?;
    match options.next().unwrap_or("") {
        "rewind" => run_rewind(options),
        "show" => run_show(options),
        "dot" => run_dot(options),
        "make" => run_make(options),
        "gen" => run_gen(options),
        "against" => run_against(options),
        "check-claims" => run_check_claims(options),
        "check-form" => run_check_form(options),
        "form-cases" => run_form_cases(options),
        "trials" => run_trials(options),
        "answer-trials" => Ok(answer_trials(&read_input(None)?).into_bytes()),
        "calls" => run_calls(options),
        "answer-calls" => Ok(answer_calls(&read_input(None)?).into_bytes()),
        "find" => run_find(options),
        "free-key" => run_helper(options, least_free_key),
        "free-locality" => run_helper(options, least_absent_locality),
        _ => Err(USAGE.to_string()),
    }
}

/// The program of document 01; `--net` also keeps the net it ends with.
fn run_rewind(options: Options) -> Output {
    let order = options.number("--order")?.unwrap_or(0);
    let input = read_input(None)?;
    let run = rewind(&input, &mut Random::new(order));
    if let Some(file) = options.value("--net") {
        write_file(".", file, &run.net)?;
    }
    Ok(run.text().into_bytes())
}

fn run_show(mut options: Options) -> Output {
    let script = options.file("--script")?;
    let net = read_input(options.next())?;
    Ok(show(&net, script.as_deref()).into_bytes())
}

fn run_dot(mut options: Options) -> Output {
    let mark = match options.number("--mark")? {
        Some(number) => Some(key(number)?),
        None => None,
    };
    let script = options.file("--script")?;
    let input = read_input(options.next())?;
    let (script, net) = opened(script, &input)?;
    if mark.is_some_and(|key| net.memory(key).is_none()) {
        return Err("the marked key is no past process".to_string());
    }
    Ok(dot(&script, &net, mark).into_bytes())
}

/// Script and net, from one input where no script is named. A net of the
/// right form that is not accepted is drawn all the same.
fn opened(script: Option<Vec<u8>>, input: &[u8]) -> Result<(Script, Net), String> {
    let stream = Stream::cut(input);
    let (script, net) = match &script {
        Some(script) => (script.as_slice(), input),
        None => (stream.script, stream.net),
    };
    let script = Script::read(script).map_err(|broken| broken.rule.sentence().to_string())?;
    match accept(&script, net) {
        Err(Refusal::Form(broken)) => return Err(broken.rule.sentence().to_string()),
        Err(Refusal::Clause(broken)) => {
            eprintln!(
                "not accepted: {} ({})",
                broken.clause.sentence(),
                broken.finding
            );
        }
        Ok(_) => {}
    }
    let net = Net::read(net).map_err(|broken| broken.rule.sentence().to_string())?;
    Ok((script, net))
}

fn run_make(mut options: Options) -> Output {
    let text = read_input(options.next())?;
    let text = String::from_utf8(text).map_err(|_| "the text is not UTF-8".to_string())?;
    make(&text).map_err(|error| format!("line {}: {}", error.line, error.message))
}

/// Makes streams until they have COUNT lines, runs `rewind` on each, and
/// prints how often each thing came up.
fn run_gen(mut options: Options) -> Output {
    let (seed, count) = options.seed_and_count()?;
    let directory = options.value("--out");
    let mut generator = Generator::new(seed);
    while generator.tally.lines < count {
        let stream = generator.stream();
        let printed = rewind(&stream.bytes, &mut Random::new(seed)).text();
        let number = generator.tally.streams;
        if let Some(directory) = directory {
            write_file(directory, &format!("stream-{number:06}.bin"), &stream.bytes)?;
            write_file(
                directory,
                &format!("stream-{number:06}.out"),
                printed.as_bytes(),
            )?;
        }
        if printed != stream.text() {
            return Err(format!(
                "stream {number} of seed {seed}: rewind and walk differ"
            ));
        }
    }
    let complaints = generator.tally.complaints().join("\n");
    Ok(format!("seed {seed}\n{}\n{complaints}\n", generator.tally.text()).into_bytes())
}

/// Runs another program on the streams of `gen` and tells where it prints
/// something else; those streams go to files.
fn run_against(mut options: Options) -> Output {
    let (seed, count) = options.seed_and_count()?;
    let directory = options.value("--out").unwrap_or(".");
    let program: Vec<&str> = options.words.collect();
    let mut generator = Generator::new(seed);
    let differences =
        against(&program, &mut generator, count).map_err(|error| error.to_string())?;
    let mut text = format!(
        "streams {}, lines {}\n",
        generator.tally.streams, generator.tally.lines
    );
    for difference in &differences {
        let name = format!("differs-{seed}-{}.bin", difference.stream);
        write_file(directory, &name, &difference.bytes)?;
        text += &format!(
            "stream {}, line {}: expected {}, printed {} (see {name})\n",
            difference.stream,
            difference.line + 1,
            difference.expected,
            difference.printed
        );
    }
    if differences.is_empty() {
        return Ok((text + "no difference\n").into_bytes());
    }
    Err(text)
}

/// Tries every claim on COUNT nets and prints what was refuted; the net of a
/// refuted claim goes to a file.
fn run_check_claims(mut options: Options) -> Output {
    let (seed, count) = options.seed_and_count()?;
    let directory = options.value("--out").unwrap_or(".");
    let mut claims = Claims::new(seed);
    while claims.nets < count && claims.refuted.len() < 20 {
        claims.try_one();
    }
    let mut text = format!("seed {seed}\n{}", claims.text());
    for (number, refuted) in claims.refuted.iter().enumerate() {
        let name = format!("refuted-{seed}-{number}.bin");
        write_file(directory, &name, &refuted.images)?;
        text += &format!(
            "REFUTED {:?}: {} (see {name})\n",
            refuted.claim, refuted.why
        );
    }
    if claims.refuted.is_empty() {
        text += "\nno claim was refuted\n";
    }
    Ok(text.into_bytes())
}

fn write_file(directory: &str, name: &str, bytes: &[u8]) -> Result<(), String> {
    let path = std::path::Path::new(directory).join(name);
    let made = std::fs::create_dir_all(directory).and_then(|()| std::fs::write(&path, bytes));
    made.map_err(|error| format!("{}: {error}", path.display()))
}

fn run_check_form(mut options: Options) -> Output {
    let sort = options.next().unwrap_or("");
    let verdict = match sort {
        "script" => script_form_verdict(&read_input(options.next())?),
        "net" => net_form_verdict(&read_input(options.next())?),
        _ => return Err(USAGE.to_string()),
    };
    Ok((verdict + "\n").into_bytes())
}

/// Writes the cases of the form and what each is, and prints how many break
/// each rule.
fn run_form_cases(options: Options) -> Output {
    let (Some(input), Some(output)) = (options.value("--input"), options.value("--output")) else {
        return Err(USAGE.to_string());
    };
    let cases = FormCases::of_base();
    write_file(".", input, &cases.input())?;
    write_file(".", output, cases.output().as_bytes())?;
    Ok(cases.text().into_bytes())
}

/// The trial stream of a seed, as bytes.
fn run_trials(mut options: Options) -> Output {
    match options.next().map(str::parse) {
        Some(Ok(seed)) => Ok(trials(seed).bytes),
        _ => Err(USAGE.to_string()),
    }
}

/// The call stream of a seed, as bytes.
fn run_calls(mut options: Options) -> Output {
    match options.next().map(str::parse) {
        Some(Ok(seed)) => Ok(calls(seed).bytes),
        _ => Err(USAGE.to_string()),
    }
}

/// The finder for one key, or for every byte.
fn run_find(mut options: Options) -> Output {
    let keys = match options.next() {
        None => 0..=u8::MAX,
        Some(word) => {
            let key: u8 = word.parse().map_err(|_| "a key 0..255 is needed")?;
            key..=key
        }
    };
    let input = read_input(None)?;
    let stream = Stream::cut(&input);
    let line = |key: u8| {
        let (answer, tuple) = find(stream.script, stream.net, key);
        format!("{key} {} {tuple}\n", answer.number())
    };
    Ok(keys.map(line).collect::<String>().into_bytes())
}

fn run_helper(_: Options, helper: fn(&[u8], &[u8]) -> (reference::answer::Answer, u8)) -> Output {
    let input = read_input(None)?;
    let stream = Stream::cut(&input);
    let (answer, name) = helper(stream.script, stream.net);
    Ok(format!("{} {name}\n", answer.number()).into_bytes())
}

fn key(number: u64) -> Result<Key, String> {
    let small = u32::try_from(number).ok();
    small
        .and_then(Key::new)
        .ok_or(format!("there is no key {number}"))
}

/// A named file, or standard input.
fn read_input(file: Option<&str>) -> Output {
    match file {
        Some(name) => std::fs::read(name).map_err(|error| format!("{name}: {error}")),
        None => {
            let mut input = Vec::new();
            io::stdin()
                .read_to_end(&mut input)
                .map_err(|error| error.to_string())?;
            Ok(input)
        }
    }
}

/// The command line: `--name value` pairs, and the other words in order.
struct Options<'a> {
    named: Vec<(&'a str, &'a str)>,
    words: std::vec::IntoIter<&'a str>,
}

impl<'a> Options<'a> {
    fn of(words: &[&'a str]) -> Result<Options<'a>, String> {
        let mut named = Vec::new();
        let mut others = Vec::new();
        let mut words = words.iter().copied();
        while let Some(word) = words.next() {
            if word.starts_with("--") {
                let value = words.next().ok_or(format!("{word} needs a value"))?;
                named.push((word, value));
            } else {
                others.push(word);
            }
        }
        Ok(Options {
            named,
            words: others.into_iter(),
        })
    }

    fn next(&mut self) -> Option<&'a str> {
        self.words.next()
    }

    fn seed_and_count(&mut self) -> Result<(u64, u64), String> {
        let mut number = || self.next().and_then(|word| word.parse().ok());
        match (number(), number()) {
            (Some(seed), Some(count)) => Ok((seed, count)),
            _ => Err(USAGE.to_string()),
        }
    }

    fn value(&self, name: &str) -> Option<&'a str> {
        self.named
            .iter()
            .find(|(n, _)| *n == name)
            .map(|&(_, value)| value)
    }

    fn number(&self, name: &str) -> Result<Option<u64>, String> {
        match self.value(name) {
            None => Ok(None),
            Some(word) => word
                .parse()
                .map(Some)
                .map_err(|_| format!("{name} needs a number")),
        }
    }

    fn file(&self, name: &str) -> Result<Option<Vec<u8>>, String> {
        match self.value(name) {
            None => Ok(None),
            Some(file) => read_input(Some(file)).map(Some),
        }
    }
}
