use crate::code::{Code, Sign};
use crate::meter::Meter;
use crate::refusal::Refusal;
use crate::value::Value;

/// What an entry of the roll begins.
#[derive(Clone, Copy, Debug, PartialEq, Eq)]
pub enum Begins {
    ActiveCall,
    PassiveCall,
    Parameter,
}

#[derive(Clone, Copy)]
pub struct RollEntry {
    begins: Begins,
    /// How much left text stood before it.
    at: usize,
}

/// The left text at the front of one area, the right text at its end, and the calls that are open.
pub struct Scan {
    area: Vec<u8>,
    left: usize,
    /// Where the right text begins.
    right: usize,
    roll: Vec<RollEntry>,
}

/// The name and the parameters of a call, where they stand in the left text.
#[derive(Clone, Copy)]
pub struct Fields<'a> {
    left: &'a [u8],
    /// The entries of the call, from the one that opens it.
    entries: &'a [RollEntry],
}

impl<'a> Fields<'a> {
    fn field(&self, k: usize) -> &'a [u8] {
        let end = self.entries.get(k + 1).map_or(self.left.len(), |next| next.at);
        &self.left[self.entries[k].at..end]
    }

    pub fn name(&self) -> &'a [u8] {
        self.field(0)
    }

    /// How many parameters there are.
    pub fn count(&self) -> usize {
        self.entries.len() - 1
    }

    /// Parameter `k`, counted from 0, or nothing where there are fewer.
    pub fn parameter(&self, k: usize) -> &'a [u8] {
        if k < self.count() { self.field(k + 1) } else { &[] }
    }

    /// The parameters from `first` on.
    pub fn from(self, first: usize) -> impl Iterator<Item = &'a [u8]> {
        (first..self.count()).map(move |k| self.parameter(k))
    }
}

impl Scan {
    /// A scan of at most `limit` bytes and `roll` entries.
    pub fn new(limit: usize, roll: usize) -> Scan {
        Scan { area: vec![0; limit], left: 0, right: limit, roll: Vec::with_capacity(roll) }
    }

    /// The source becomes the right text; it fits.
    pub fn start(&mut self, source: &[u8]) {
        self.left = 0;
        self.right = self.area.len() - source.len();
        self.area[self.right..].copy_from_slice(source);
        self.roll.clear();
    }

    pub fn left_text(&self) -> &[u8] {
        &self.area[..self.left]
    }

    pub fn right_text(&self) -> &[u8] {
        &self.area[self.right..]
    }

    pub fn is_inside_a_call(&self) -> bool {
        !self.roll.is_empty()
    }

    pub fn drop(&mut self, bytes: usize) {
        self.right += bytes;
    }

    /// So many bytes of the right text move left.
    pub fn pass(&mut self, bytes: usize) {
        self.area.copy_within(self.right..self.right + bytes, self.left);
        self.left += bytes;
        self.right += bytes;
    }

    /// The plain bytes at the front of the right text move left, but at most so many; says how many there were.
    pub fn pass_plain(&mut self, code: &Code, most: usize) -> usize {
        let most = most.min(self.area.len() - self.right);
        let front = &self.area[self.right..self.right + most];
        let run = front.iter().position(|&byte| code.sign(byte) != Sign::Plain).unwrap_or(most);
        self.pass(run);
        run
    }

    /// The roll gains an entry.
    pub fn enter(&mut self, begins: Begins, meter: &mut Meter) -> Result<(), Refusal> {
        meter.roll(self.roll.len() + 1)?;
        self.roll.push(RollEntry { begins, at: self.left });
        Ok(())
    }

    /// `<` goes with its matching `>`, and all between moves left.
    pub fn unbracket(&mut self, code: &Code) -> Result<(), Refusal> {
        let inside = matching(code, &self.area[self.right + 1..]).ok_or(Refusal::Unmatched)?;
        self.drop(1);
        self.pass(inside);
        self.drop(1);
        Ok(())
    }

    /// The entry that opens the innermost call.
    fn innermost(&self) -> usize {
        self.roll.iter().rposition(|entry| entry.begins != Begins::Parameter).unwrap_or(0)
    }

    /// The innermost call, and the place of its value.
    pub fn call(&mut self) -> (Fields<'_>, Value<'_>) {
        let first = self.innermost();
        let used = self.left + self.area.len() - self.right;
        let (left, gap) = self.area[..self.right].split_at_mut(self.left);
        (Fields { left, entries: &self.roll[first..] }, Value::new(gap, used))
    }

    /// A value of so many bytes, which is written behind the left text, takes the place of the innermost call.
    pub fn deliver(&mut self, length: usize) {
        let first = self.innermost();
        let RollEntry { begins, at } = self.roll[first];
        self.roll.truncate(first);
        if begins == Begins::ActiveCall {
            self.move_right(length);
            self.left = at;
        } else {
            self.area.copy_within(self.left..self.left + length, at);
            self.left = at + length;
        }
    }

    /// The value becomes the right text, and all calls go.
    pub fn break_off(&mut self, length: usize) {
        self.right = self.area.len();
        self.move_right(length);
        self.left = self.roll[0].at;
        self.roll.clear();
    }

    fn move_right(&mut self, length: usize) {
        self.right -= length;
        self.area.copy_within(self.left..self.left + length, self.right);
    }

    /// The left text becomes the name of the innermost call.
    pub fn show_name(&mut self) {
        let name = self.call().0.name().len();
        let at = self.roll[self.innermost()].at;
        self.area.copy_within(at..at + name, 0);
        self.left = name;
    }
}

/// How many bytes stand before the `>` that matches.
fn matching(code: &Code, text: &[u8]) -> Option<usize> {
    let mut depth = 0;
    let mut at = 0;
    while let Some(&byte) = text.get(at) {
        match code.sign(byte) {
            Sign::At => at += 1,
            Sign::Less => depth += 1,
            Sign::Greater if depth == 0 => return Some(at),
            Sign::Greater => depth -= 1,
            _ => {}
        }
        at += 1;
    }
    None
}
