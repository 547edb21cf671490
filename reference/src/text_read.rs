//! The language of `make`: scripts, nets and requests, one record a line.
//! docs/REFERENCE.md describes it; `text_write` prints it.

use crate::names::{Key, Locality, NodeName, Reference, Variable, NONE};
use crate::net::{Datum, Memory, Net, Process, Slot, Tuple};
use crate::net_form::{NET_LENGTH, NET_MARK};
use crate::script::{Field, Node, Script, Target};
use crate::script_form::{Kind, SCRIPT_LENGTH, SCRIPT_MARK};

/// What is wrong, and in which line.
#[derive(Clone, PartialEq, Eq, Debug)]
pub struct TextError {
    pub line: usize,
    pub message: String,
}

type Parsed<T> = Result<T, String>;

/// The images and requests that the text describes, one after the other.
pub fn make(text: &str) -> Result<Vec<u8>, TextError> {
    let mut making = Making::default();
    for (number, line) in text.lines().enumerate() {
        let line_error = |message| TextError {
            line: number + 1,
            message,
        };
        let mut words = Words::of(line).map_err(line_error)?;
        if !words.at_end() {
            making
                .line(&mut words)
                .and_then(|()| words.end())
                .map_err(line_error)?;
        }
    }
    making.finish_image();
    Ok(making.output)
}

/// What the lines so far describe.
#[derive(Default)]
struct Making {
    output: Vec<u8>,
    image: Option<Image>,
    patches: Vec<(usize, Vec<u8>)>,
    length: Option<usize>,
}

enum Image {
    Script(Script),
    Net(Net),
}

impl Making {
    fn line(&mut self, words: &mut Words) -> Parsed<()> {
        match words.word()? {
            "script" => self.begin(Image::Script(Script::empty())),
            "net" => self.begin(Image::Net(Net::empty())),
            "requests" => self.finish_image(),
            "node" => return node_line(self.script()?, words),
            "present" => return present_line(self.net()?, words),
            "key" => return key_line(self.net()?, words),
            "request" => return request_line(&mut self.output, words),
            "length" => self.length = Some(words.number()? as usize),
            "bytes" => self.patches.push(patch(words)?),
            other => return Err(format!("no line begins with \"{other}\"")),
        }
        Ok(())
    }

    fn begin(&mut self, image: Image) {
        self.finish_image();
        self.image = Some(image);
    }

    fn script(&mut self) -> Parsed<&mut Script> {
        match &mut self.image {
            Some(Image::Script(script)) => Ok(script),
            _ => Err("this line belongs after a line \"script\"".to_string()),
        }
    }

    fn net(&mut self) -> Parsed<&mut Net> {
        match &mut self.image {
            Some(Image::Net(net)) => Ok(net),
            _ => Err("this line belongs after a line \"net\"".to_string()),
        }
    }

    /// Length and single bytes are set last, so that damaged images can be
    /// written too.
    fn finish_image(&mut self) {
        let Some(image) = self.image.take() else {
            return;
        };
        let mut bytes = match image {
            Image::Script(script) => script.write(),
            Image::Net(net) => net.write(),
        };
        if let Some(length) = self.length.take() {
            bytes.resize(length, 0);
        }
        for (at, patch) in self.patches.drain(..) {
            for (i, byte) in patch.into_iter().enumerate() {
                if let Some(place) = bytes.get_mut(at + i) {
                    *place = byte;
                }
            }
        }
        self.output.extend(bytes);
    }
}

/// `node 1 out(1)@l0 as r0 then 2`
fn node_line(script: &mut Script, words: &mut Words) -> Parsed<()> {
    let name = words.name(NodeName::new, "node")?;
    script.set(name, action(words)?);
    Ok(())
}

fn action(words: &mut Words) -> Parsed<Node> {
    let word = words.word()?;
    let kind = Kind::ALL
        .into_iter()
        .find(|kind| kind.word() == word)
        .ok_or(format!("\"{word}\" is no action"))?;
    let mut node = Node {
        kind,
        ..Node::nil()
    };
    match kind {
        Kind::Nil => return Ok(node),
        Kind::Roll => {
            node.reference = words.in_brackets(|words| reference(words).map(Some))?;
            return Ok(node);
        }
        Kind::Split => {
            (node.next, node.other) = words.in_brackets(two_nodes)?;
            return Ok(node);
        }
        Kind::Out | Kind::In | Kind::Read => node.fields = words.in_brackets(fields)?,
        Kind::Newloc => node.target = Some(words.in_brackets(target)?),
        Kind::Eval => node.other = words.in_brackets(|words| words.name(NodeName::new, "node"))?,
    }
    if kind != Kind::Newloc {
        words.expect("@")?;
        node.target = Some(target(words)?);
    }
    if words.accept("as") {
        node.reference = Some(reference(words)?);
    }
    words.expect("then")?;
    node.next = words.name(NodeName::new, "node")?;
    Ok(node)
}

fn two_nodes(words: &mut Words) -> Parsed<(NodeName, NodeName)> {
    let left = words.name(NodeName::new, "node")?;
    words.expect(",")?;
    Ok((left, words.name(NodeName::new, "node")?))
}

fn target(words: &mut Words) -> Parsed<Target> {
    let word = words.word()?;
    if let Some(locality) = prefixed(word, 'l', Locality::new) {
        return Ok(Target::Literal(locality));
    }
    prefixed(word, 'x', Variable::new)
        .map(Target::Variable)
        .ok_or(format!("\"{word}\" is no target: l0 or x0 was expected"))
}

fn reference(words: &mut Words) -> Parsed<Reference> {
    let word = words.word()?;
    prefixed(word, 'r', Reference::new).ok_or(format!("\"{word}\" is no reference r0..r3"))
}

fn fields(words: &mut Words) -> Parsed<Vec<Field>> {
    let mut fields = Vec::new();
    while !words.next_is(")") && fields.len() < 4 {
        if !fields.is_empty() {
            words.expect(",")?;
        }
        fields.push(field(words)?);
    }
    Ok(fields)
}

fn field(words: &mut Words) -> Parsed<Field> {
    let formal = words.accept("!");
    let word = words.word()?;
    let found = if formal {
        prefixed(word, 'x', Variable::new)
            .map(Field::FormalValue)
            .or(prefixed(word, 'u', Variable::new).map(Field::FormalLocality))
    } else {
        prefixed(word, 'x', Variable::new)
            .map(Field::Variable)
            .or(prefixed(word, 'l', Locality::new).map(Field::Literal))
            .or(word.parse().ok().map(Field::Value))
    };
    found.ok_or(format!("\"{word}\" is no field"))
}

/// `present l0 l1`
fn present_line(net: &mut Net, words: &mut Words) -> Parsed<()> {
    while !words.at_end() {
        net.present.insert(locality(words)?);
    }
    Ok(())
}

fn locality(words: &mut Words) -> Parsed<Locality> {
    let word = words.word()?;
    prefixed(word, 'l', Locality::new).ok_or(format!("\"{word}\" is no locality l0..l31"))
}

/// `key 0 live node 1 at l0 x0=5 r0=7` and its like.
fn key_line(net: &mut Net, words: &mut Words) -> Parsed<()> {
    let key = words.name(Key::new, "key")?;
    let slot = match words.word()? {
        "live" => Slot::Live(live_process(words)?),
        "past" => {
            let (process, memory) = process(words)?;
            Slot::Past(process, memory)
        }
        "tuple" => Slot::Tuple(tuple(words)?),
        "consumed" => Slot::Consumed(tuple(words)?),
        other => return Err(format!("\"{other}\" is no kind of record")),
    };
    net.set(key, slot);
    Ok(())
}

fn live_process(words: &mut Words) -> Parsed<Process> {
    let (process, memory) = process(words)?;
    if memory != Memory::default() {
        return Err("a live process has made and used nothing".to_string());
    }
    Ok(process)
}

fn process(words: &mut Words) -> Parsed<(Process, Memory)> {
    words.expect("node")?;
    let node = words.name(NodeName::new, "node")?;
    words.expect("at")?;
    let mut process = Process {
        locality: locality(words)?,
        node,
        variables: [Datum::Unset; Variable::COUNT],
        references: [None; Reference::COUNT],
    };
    let mut memory = Memory::default();
    while !words.at_end() {
        setting(words, &mut process, &mut memory)?;
    }
    Ok((process, memory))
}

fn setting(words: &mut Words, process: &mut Process, memory: &mut Memory) -> Parsed<()> {
    let place = words.word()?;
    words.expect("=")?;
    if let Some(x) = prefixed(place, 'x', Variable::new) {
        process.variables[x.index()] = datum(words)?;
        return Ok(());
    }
    if let Some(r) = prefixed(place, 'r', Reference::new) {
        process.references[r.index()] = Some(words.name(Key::new, "key")?);
        return Ok(());
    }
    match place {
        "first" => memory.first = Some(words.name(Key::new, "key")?),
        "second" => memory.second = Some(words.name(Key::new, "key")?),
        "used" => memory.used = Some(words.name(Key::new, "key")?),
        "made" => memory.locality = Some(locality(words)?),
        other => return Err(format!("\"{other}\" is no place of a process")),
    }
    Ok(())
}

fn tuple(words: &mut Words) -> Parsed<Tuple> {
    let fields = words.in_brackets(data)?;
    words.expect("at")?;
    Ok(Tuple {
        locality: locality(words)?,
        fields,
    })
}

fn data(words: &mut Words) -> Parsed<Vec<Datum>> {
    let mut data = Vec::new();
    while !words.next_is(")") && data.len() < 8 {
        if !data.is_empty() {
            words.expect(",")?;
        }
        data.push(datum(words)?);
    }
    Ok(data)
}

fn datum(words: &mut Words) -> Parsed<Datum> {
    let word = words.word()?;
    if word == "_" {
        return Ok(Datum::Unset);
    }
    prefixed(word, 'l', Locality::new)
        .map(Datum::Locality)
        .or(word.parse().ok().map(Datum::Value))
        .ok_or(format!("\"{word}\" is no value, locality or _"))
}

/// `request 0 0 - 2 3 -`; fewer or more numbers make a request of wrong
/// length.
fn request_line(output: &mut Vec<u8>, words: &mut Words) -> Parsed<()> {
    while !words.at_end() {
        let byte = if words.accept("-") {
            NONE
        } else {
            words.byte()?
        };
        output.push(byte);
    }
    Ok(())
}

/// `bytes 75 1 0 255`: these bytes of the image from 75 on.
fn patch(words: &mut Words) -> Parsed<(usize, Vec<u8>)> {
    let at = words.number()? as usize;
    let mut bytes = Vec::new();
    while !words.at_end() {
        bytes.push(words.byte()?);
    }
    Ok((at, bytes))
}

/// `l3` with prefix `l` is locality 3.
fn prefixed<T>(word: &str, prefix: char, name: fn(u32) -> Option<T>) -> Option<T> {
    name(word.strip_prefix(prefix)?.parse().ok()?)
}

/// The words and signs of one line, up to a `#`.
struct Words<'a> {
    words: Vec<&'a str>,
    at: usize,
}

impl<'a> Words<'a> {
    fn of(line: &'a str) -> Parsed<Words<'a>> {
        let line = line.split('#').next().unwrap_or("");
        let mut words = Vec::new();
        let mut rest = line.trim_start();
        while let Some(first) = rest.chars().next() {
            let is_word = |c: char| c.is_ascii_alphanumeric() || c == '_';
            let length = if is_word(first) {
                rest.find(|c| !is_word(c)).unwrap_or(rest.len())
            } else if "(),@!=-".contains(first) {
                1
            } else {
                return Err(format!("\"{first}\" has no meaning here"));
            };
            let (word, after) = rest.split_at(length);
            words.push(word);
            rest = after.trim_start();
        }
        Ok(Words { words, at: 0 })
    }

    fn at_end(&self) -> bool {
        self.at == self.words.len()
    }

    fn end(&self) -> Parsed<()> {
        match self.words.get(self.at) {
            Some(word) => Err(format!("\"{word}\" was not expected")),
            None => Ok(()),
        }
    }

    fn next_is(&self, word: &str) -> bool {
        self.words.get(self.at) == Some(&word)
    }

    fn accept(&mut self, word: &str) -> bool {
        let found = self.next_is(word);
        self.at += usize::from(found);
        found
    }

    fn expect(&mut self, word: &str) -> Parsed<()> {
        if self.accept(word) {
            return Ok(());
        }
        Err(format!("\"{word}\" was expected"))
    }

    fn word(&mut self) -> Parsed<&'a str> {
        let word = *self.words.get(self.at).ok_or("the line ends too early")?;
        self.at += 1;
        Ok(word)
    }

    fn number(&mut self) -> Parsed<u32> {
        let word = self.word()?;
        word.parse().map_err(|_| format!("\"{word}\" is no number"))
    }

    fn byte(&mut self) -> Parsed<u8> {
        let number = self.number()?;
        u8::try_from(number).map_err(|_| format!("{number} is no byte"))
    }

    fn name<T>(&mut self, name: fn(u32) -> Option<T>, sort: &str) -> Parsed<T> {
        let number = self.number()?;
        name(number).ok_or(format!("there is no {sort} {number}"))
    }

    fn in_brackets<T>(&mut self, inner: impl FnOnce(&mut Self) -> Parsed<T>) -> Parsed<T> {
        self.expect("(")?;
        let found = inner(self)?;
        self.expect(")")?;
        Ok(found)
    }
}

/// What an input to `show` or `dot` is: a script, a net, or a whole stream.
#[derive(Clone, Copy, PartialEq, Eq, Debug)]
pub enum Sort {
    Script,
    Net,
    Stream,
}

/// Told by the length first and by the mark second, so that damaged images
/// can be looked at too.
pub fn sort_of(bytes: &[u8]) -> Sort {
    match bytes.len() {
        NET_LENGTH => Sort::Net,
        SCRIPT_LENGTH => Sort::Script,
        length if length >= SCRIPT_LENGTH + NET_LENGTH => Sort::Stream,
        _ if bytes.starts_with(NET_MARK) => Sort::Net,
        length if bytes.starts_with(SCRIPT_MARK) && length > SCRIPT_LENGTH => Sort::Stream,
        _ if bytes.starts_with(SCRIPT_MARK) => Sort::Script,
        _ => Sort::Net,
    }
}
