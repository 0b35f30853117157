//! DS AP ES CF SS SC CR

use crate::call::Call;
use crate::dictionary::{Meaning, Size, Str};
use crate::marking::{Segmented, mark, segment};
use crate::refusal::Refusal;

impl Call<'_> {
    /// Do the names fit, the store, and the empty value?
    fn fit_definition(&mut self, size: Size) -> Result<(), Refusal> {
        self.meter.names(size.names)?;
        self.meter.store(size.bytes)?;
        self.value.fit(self.meter)
    }

    pub fn define_string(&mut self) -> Result<(), Refusal> {
        let (name, body) = (self.p(1), self.p(2));
        self.fit_definition(self.dictionary.size_after(name, body.len()))?;
        self.dictionary.define(name, Meaning::String(Str::new(body)));
        Ok(())
    }

    pub fn append(&mut self) -> Result<(), Refusal> {
        let (name, more) = (self.p(1), self.p(2));
        let length = match self.dictionary.meaning(name) {
            None => return self.define_string(),
            Some(Meaning::String(string)) => string.body.len() + more.len(),
            Some(_) => return Err(Refusal::NotAString),
        };
        self.fit_definition(self.dictionary.size_after(name, length))?;
        self.dictionary.change_body(name, |string| {
            string.body.extend_from_slice(more);
            string.pointer = string.body.len();
        });
        Ok(())
    }

    pub fn erase(&mut self) -> Result<(), Refusal> {
        self.value.fit(self.meter)?;
        for name in self.fields.from(0) {
            self.dictionary.erase(name);
        }
        Ok(())
    }

    pub fn copy_function(&mut self) -> Result<(), Refusal> {
        let name = self.p(1);
        let (copy, length) = match self.dictionary.meaning(self.p(2)) {
            None => return Err(Refusal::NameUndefined),
            Some(Meaning::String(string)) => (Meaning::String(Str::new(string.rest())), string.rest().len()),
            Some(Meaning::Original(function) | Meaning::Copied(function)) => (Meaning::Copied(*function), 0),
        };
        self.fit_definition(self.dictionary.size_after(name, length))?;
        self.dictionary.define(name, copy);
        Ok(())
    }

    /// SS, and SC where the places are counted.
    pub fn segment(&mut self, counted: bool) -> Result<(), Refusal> {
        let name = self.p(1);
        let Segmented { rest, places, numbered } = segment(self.code, self.dictionary.string(name)?, self.fields.from(1).take(62));
        if numbered {
            if counted {
                self.value.push_integer(self.code, places as i64);
            }
            self.value.fit(self.meter)?;
        }
        self.dictionary.change_body(name, |string| {
            string.body.truncate(string.pointer);
            string.body.extend_from_slice(&rest);
        });
        if numbered { Ok(()) } else { Err(Refusal::NoMarkNumber) }
    }

    pub fn mark_for_creation(&mut self) -> Result<(), Refusal> {
        let (name, sought) = (self.p(1), self.p(2));
        self.dictionary.string(name)?;
        self.value.fit(self.meter)?;
        let creation_mark = self.code.creation_mark;
        self.dictionary.change_body(name, |string| {
            mark(&mut string.body, string.pointer, sought, creation_mark);
        });
        Ok(())
    }
}
