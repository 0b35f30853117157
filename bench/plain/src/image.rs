use crate::code::Code;
use crate::library::{Library, NamedString, Program};
use crate::refusal::Refusal;

const ENTRY: usize = 25;

/// An entry of the contents.
struct Entry<'a> {
    name_length: usize,
    field: &'a [u8],
    string_name: usize,
    string_body: usize,
}

impl<'a> Entry<'a> {
    fn read(bytes: &'a [u8]) -> Entry<'a> {
        let two = |at: usize| usize::from(bytes[at]) * 256 + usize::from(bytes[at + 1]);
        Entry { name_length: usize::from(bytes[0]), field: &bytes[1..21], string_name: two(21), string_body: two(23) }
    }

    fn is_well_named(&self) -> bool {
        (1..=20).contains(&self.name_length) && self.field[self.name_length..].iter().all(|&byte| byte == 0)
    }

    /// The name of its program, once it is well named.
    fn program(&self) -> &'a [u8] {
        &self.field[..self.name_length]
    }
}

/// Does no program name come again after another?
fn are_adjacent(entries: &[Entry]) -> bool {
    entries.windows(2).enumerate().all(|(k, pair)| {
        let name = pair[1].program();
        name == pair[0].program() || entries[..k].iter().all(|earlier| earlier.program() != name)
    })
}

/// The programs of entries and of the texts behind them, which they fill.
fn programs(entries: &[Entry], texts: &[u8]) -> Vec<Program> {
    let mut programs: Vec<Program> = Vec::new();
    let mut rest = texts;
    for entry in entries {
        let (name, behind) = rest.split_at(entry.string_name);
        let (body, behind) = behind.split_at(entry.string_body);
        rest = behind;
        if programs.last().is_none_or(|last| last.name != entry.program()) {
            programs.push(Program { name: entry.program().to_vec(), strings: Vec::new() });
        }
        if let Some(last) = programs.last_mut() {
            last.strings.push(NamedString { name: name.to_vec(), body: body.to_vec() });
        }
    }
    programs
}

fn is_proper(code: &Code, program: &Program) -> bool {
    let proper_string = |string: &NamedString| code.is_proper_name(&string.name) && code.is_proper_body(&string.body);
    code.is_proper_name(&program.name) && program.strings.iter().all(proper_string)
}

fn unless(question: bool, refusal: Refusal) -> Result<(), Refusal> {
    if question { Ok(()) } else { Err(refusal) }
}

impl Library {
    /// The library that an image holds.
    pub fn open(code: &Code, image: &[u8]) -> Result<Library, Refusal> {
        let [number, count, rest @ ..] = image else { return Err(Refusal::WrongCode) };
        unless(*number == code.number, Refusal::WrongCode)?;
        let contents = ENTRY * usize::from(*count);
        unless(*count <= 128 && contents <= rest.len(), Refusal::ContentsIncomplete)?;
        let (contents, texts) = rest.split_at(contents);
        let entries: Vec<Entry> = contents.chunks_exact(ENTRY).map(Entry::read).collect();
        unless(entries.iter().all(Entry::is_well_named), Refusal::ProgramNameMalformed)?;
        unless(are_adjacent(&entries), Refusal::ProgramSplit)?;
        let lengths: usize = entries.iter().map(|entry| entry.string_name + entry.string_body).sum();
        unless(lengths == texts.len(), Refusal::TextsMisfit)?;
        let programs = programs(&entries, texts);
        unless(programs.iter().all(|program| is_proper(code, program)), Refusal::ForeignByte)?;
        Ok(Library::locked(programs))
    }
}
