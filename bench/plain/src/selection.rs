//! CC CN SN ISC SCN CP CS RRP EOS

use crate::call::Call;
use crate::code::{Code, Kind, Sign};
use crate::number::count;
use crate::refusal::Refusal;

impl Call<'_> {
    /// The value is what stands before `k`, without marks, and the pointer goes to `end`, both counted from the pointer.
    fn call_up_to(&mut self, name: &[u8], k: usize, end: usize) -> Result<(), Refusal> {
        let string = self.dictionary.string_mut(name)?;
        self.value.push_without_marks(self.code, &string.rest()[..k]);
        self.value.fit(self.meter)?;
        string.pointer += end;
        Ok(())
    }

    pub fn call_characters(&mut self, n: usize, name: &[u8]) -> Result<(), Refusal> {
        let k = bytes_to_pass(self.code, n, self.dictionary.string(name)?.rest());
        self.call_up_to(name, k, k)
    }

    pub fn call_counted(&mut self) -> Result<(), Refusal> {
        let n = count(self.code, self.p(1))?;
        self.call_characters(n, self.p(2))
    }

    pub fn skip_counted(&mut self) -> Result<(), Refusal> {
        let n = count(self.code, self.p(1))?;
        let string = self.dictionary.string_mut(self.fields.parameter(1))?;
        self.value.fit(self.meter)?;
        string.pointer += bytes_to_pass(self.code, n, string.rest());
        Ok(())
    }

    pub fn initial_scan(&mut self) -> Result<(), Refusal> {
        let (sought, yes, no) = (self.p(1), self.p(3), self.p(4));
        let string = self.dictionary.string_mut(self.fields.parameter(1))?;
        let found = !sought.is_empty() && string.rest().starts_with(sought);
        self.value.push(if found { yes } else { no });
        self.value.fit(self.meter)?;
        if found {
            string.pointer += sought.len();
        }
        Ok(())
    }

    pub fn scan_for(&mut self) -> Result<(), Refusal> {
        let (sought, name) = (self.p(1), self.p(2));
        match place_of(sought, self.dictionary.string(name)?.rest()) {
            Some(k) => self.call_up_to(name, k, k + sought.len()),
            None => self.answer(self.p(3)),
        }
    }

    /// The value is what stands before a place, and the pointer goes past it; all, if there is no such place.
    fn call_before(&mut self, name: &[u8], place: impl FnOnce(&Code, &[u8]) -> Option<usize>) -> Result<(), Refusal> {
        let rest = self.dictionary.string(name)?.rest();
        let length = rest.len();
        match place(self.code, rest) {
            Some(k) => self.call_up_to(name, k, k + 1),
            None => self.call_up_to(name, length, length),
        }
    }

    pub fn call_parameter(&mut self) -> Result<(), Refusal> {
        self.call_before(self.p(1), separator)
    }

    pub fn call_segment(&mut self) -> Result<(), Refusal> {
        self.call_before(self.p(1), |code, rest| rest.iter().position(|&byte| matches!(code.kind(byte), Kind::SegmentMark(_))))
    }

    pub fn reset_pointer(&mut self) -> Result<(), Refusal> {
        let string = self.dictionary.string_mut(self.fields.parameter(0))?;
        self.value.fit(self.meter)?;
        string.pointer = 0;
        Ok(())
    }

    pub fn test_end(&mut self) -> Result<(), Refusal> {
        let at_end = self.dictionary.string(self.p(1))?.rest().is_empty();
        self.choose(at_end, self.p(2), self.p(3))
    }
}

/// How many bytes it takes to pass `n` characters; all, where there are fewer. Marks are not counted.
fn bytes_to_pass(code: &Code, n: usize, text: &[u8]) -> usize {
    let Some(last) = n.checked_sub(1) else { return 0 };
    let mut characters = (0..text.len()).filter(|&k| !code.is_mark(text[k]));
    characters.nth(last).map_or(text.len(), |k| k + 1)
}

/// Where the sought text stands first; an empty one stands nowhere.
fn place_of(sought: &[u8], text: &[u8]) -> Option<usize> {
    if sought.is_empty() { None } else { text.windows(sought.len()).position(|window| window == sought) }
}

/// The place of the first `;` at level zero.
fn separator(code: &Code, text: &[u8]) -> Option<usize> {
    let mut level: usize = 0;
    let mut at = 0;
    while let Some(&byte) = text.get(at) {
        match code.sign(byte) {
            Sign::At => at += 1,
            Sign::Less => level += 1,
            Sign::Greater => level = level.saturating_sub(1),
            Sign::Semicolon if level == 0 => return Some(at),
            _ => {}
        }
        at += 1;
    }
    None
}
