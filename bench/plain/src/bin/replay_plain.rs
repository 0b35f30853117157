//! Reads a script of calls from standard input and answers each with a line.
//!
//! One call a line; a line that begins with % is a comment. Bytes are in lower-case hex, - for none.

use std::io::{self, BufRead, BufWriter, Write};

use plain::{Amounts, Areas, Code, Finding, Library, NamedString, Processor, Program, Refusal, check_program_name};

type Failure = Box<dyn std::error::Error>;

/// What the calls of a script are made on.
struct Host {
    processor: Option<Processor>,
    library: Library,
}

/// The words of a line.
struct Words<'a>(std::str::SplitWhitespace<'a>);

impl<'a> Words<'a> {
    fn word(&mut self) -> Result<&'a str, Failure> {
        self.0.next().ok_or_else(|| "a word is missing".into())
    }

    fn number(&mut self) -> Result<usize, Failure> {
        Ok(self.word()?.parse()?)
    }

    fn bytes(&mut self) -> Result<Vec<u8>, Failure> {
        let word = self.word()?;
        if word == "-" {
            return Ok(Vec::new());
        }
        (0..word.len() / 2).map(|k| Ok(u8::from_str_radix(&word[2 * k..2 * k + 2], 16)?)).collect()
    }

    fn code(&mut self) -> Result<&'static Code, Failure> {
        match self.word()? {
            "ascii" => Ok(Code::ascii()),
            "ebcdic" => Ok(Code::ebcdic()),
            other => Err(format!("{other} is no code").into()),
        }
    }
}

fn hex(bytes: &[u8]) -> String {
    if bytes.is_empty() { "-".to_string() } else { bytes.iter().map(|byte| format!("{byte:02x}")).collect() }
}

fn number(refusal: Option<Refusal>) -> u8 {
    refusal.map_or(0, Refusal::number)
}

fn granted(result: Result<(), Refusal>) -> String {
    match result {
        Ok(()) => "ok".to_string(),
        Err(refusal) => format!("refused {}", refusal.number()),
    }
}

impl Host {
    fn answer(&mut self, line: &str) -> Result<String, Failure> {
        let mut words = Words(line.split_whitespace());
        match words.word()? {
            "make" => self.make(words),
            "shelf" => self.replace_library(Ok(Library::shelf())),
            "lock" => self.lock(),
            "open" => self.replace_library(Library::open(words.code()?, &words.bytes()?)),
            "put" => self.put(words),
            "expand" => self.expand(words),
            "look" => self.look(words),
            "lib" => self.list(),
            other => Err(format!("{other} is no call").into()),
        }
    }

    fn make(&mut self, mut words: Words) -> Result<String, Failure> {
        let code = words.code()?;
        let (names, roll, store) = (words.number()?, words.number()?, words.number()?);
        let limits = Amounts { names, roll, store, scan: words.number()?, print: words.number()? };
        let made = Processor::make(code, limits);
        Ok(granted(made.map(|processor| self.processor = Some(processor))))
    }

    fn replace_library(&mut self, library: Result<Library, Refusal>) -> Result<String, Failure> {
        Ok(granted(library.map(|library| self.library = library)))
    }

    fn lock(&mut self) -> Result<String, Failure> {
        let library = std::mem::replace(&mut self.library, Library::shelf());
        self.replace_library(Ok(library.into_locked()))
    }

    fn put(&mut self, mut words: Words) -> Result<String, Failure> {
        let name = words.bytes()?;
        let mut strings = Vec::new();
        for _ in 0..words.number()? {
            strings.push(NamedString { name: words.bytes()?, body: words.bytes()? });
        }
        let stored = check_program_name(&name).and_then(|()| self.library.store(Program { name, strings }));
        Ok(granted(stored))
    }

    fn expand(&mut self, mut words: Words) -> Result<String, Failure> {
        let processor = self.processor.as_mut().ok_or("no processor was made")?;
        let (allowance, source) = (words.number()?, words.bytes()?);
        let areas = Areas { store: words.number()?, scan: words.number()?, print: words.number()? };
        let reply = processor.expand(&mut self.library, allowance, &source, areas);
        let Amounts { names, roll, store, scan, print } = reply.needs;
        let (refused, text, printed, steps) = (number(reply.refusal), hex(reply.text), hex(reply.printed), reply.steps);
        Ok(format!(
            "number {refused} text {text} printed {printed} steps {steps} names {names} roll {roll} store {store} scan {scan} print {print}"
        ))
    }

    fn look(&mut self, mut words: Words) -> Result<String, Failure> {
        let processor = self.processor.as_ref().ok_or("no processor was made")?;
        let (name, store) = (words.bytes()?, words.number()?);
        let (refusal, finding, bytes): (_, _, &[u8]) = match processor.look(&name, store) {
            Err(refusal) => (Some(refusal), "absent", &[]),
            Ok(Finding::Absent) => (None, "absent", &[]),
            Ok(Finding::BuiltIn) => (None, "builtin", &[]),
            Ok(Finding::String(rest)) => (None, "string", rest),
        };
        Ok(format!("number {} finding {finding} bytes {}", number(refusal), hex(bytes)))
    }

    fn list(&self) -> Result<String, Failure> {
        let space = self.library.space();
        let locked = u8::from(self.library.is_locked());
        let programs: String = self.library.programs().iter().map(listed).collect();
        Ok(format!("locked {locked} left {} {} {}{programs}", space.programs, space.strings, space.bytes))
    }
}

fn listed(program: &Program) -> String {
    let string = |string: &NamedString| format!(" {}={}", hex(&string.name), hex(&string.body));
    let strings: String = program.strings.iter().map(string).collect();
    format!(" {}:{strings}", hex(&program.name))
}

fn main() -> Result<(), Failure> {
    let mut host = Host { processor: None, library: Library::shelf() };
    let mut out = BufWriter::new(io::stdout().lock());
    for line in io::stdin().lock().lines() {
        let line = line?;
        if !line.is_empty() && !line.starts_with('%') {
            writeln!(out, "{}", host.answer(&line)?)?;
        }
    }
    Ok(out.flush()?)
}
