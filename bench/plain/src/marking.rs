use crate::code::{Code, Kind};
use crate::dictionary::Str;

/// The rest of a string, segmented.
pub struct Segmented {
    pub rest: Vec<u8>,
    /// How many places were marked.
    pub places: usize,
    /// Were there mark numbers enough?
    pub numbered: bool,
}

/// Marks the substrings in the string from its pointer on, numbered from the highest mark of the whole body.
pub fn segment<'a>(code: &Code, string: &Str, substrings: impl Iterator<Item = &'a [u8]>) -> Segmented {
    let mut segmented = Segmented { rest: string.rest().to_vec(), places: 0, numbered: true };
    for (number, sought) in (highest_mark(code, &string.body) + 1..).zip(substrings) {
        if number > 62 {
            segmented.numbered = false;
            break;
        }
        segmented.places += mark(&mut segmented.rest, 0, sought, code.segment_mark(number));
    }
    segmented
}

fn highest_mark(code: &Code, body: &[u8]) -> u8 {
    let number = |&byte: &u8| if let Kind::SegmentMark(number) = code.kind(byte) { number } else { 0 };
    body.iter().map(number).max().unwrap_or(0)
}

/// Puts the mark for each match of the sought text from `start` on, in place; says how many there were.
pub fn mark(text: &mut Vec<u8>, start: usize, sought: &[u8], mark: u8) -> usize {
    if sought.is_empty() {
        return 0;
    }
    let mut matches = 0;
    let (mut from, mut to) = (start, start);
    while from < text.len() {
        if text[from..].starts_with(sought) {
            text[to] = mark;
            from += sought.len();
            matches += 1;
        } else {
            text[to] = text[from];
            from += 1;
        }
        to += 1;
    }
    text.truncate(to);
    matches
}
