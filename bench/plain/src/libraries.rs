//! STORE DELETE COPY NAMES PDF, and retrieval

use crate::call::Call;
use crate::code::Code;
use crate::dictionary::{Dictionary, Meaning, Str};
use crate::library::{NamedString, Program, check_program_name};
use crate::meter::Meter;
use crate::refusal::Refusal;

impl Call<'_> {
    pub fn store(&mut self) -> Result<(), Refusal> {
        let name = self.p(1);
        if self.fields.from(1).any(|string| self.dictionary.meaning(string).is_none()) {
            return Err(Refusal::NameUndefined);
        }
        let mut strings = Vec::with_capacity(self.fields.count() - 1);
        for string in self.fields.from(1) {
            strings.push(NamedString { name: string.to_vec(), body: self.dictionary.string(string)?.body.clone() });
        }
        check_program_name(name)?;
        let program = Program { name: name.to_vec(), strings };
        self.library.check_store(&program)?;
        self.value.fit(self.meter)?;
        self.library.store(program)
    }

    pub fn delete(&mut self) -> Result<(), Refusal> {
        let name = self.p(1);
        check_program_name(name)?;
        self.library.check_delete(name)?;
        self.value.fit(self.meter)?;
        self.library.delete(name)
    }

    pub fn copy(&mut self) -> Result<(), Refusal> {
        let name = self.p(1);
        check_program_name(name)?;
        let program = self.library.find(name).ok_or(Refusal::ProgramAbsent)?;
        fetch(self.code, program, self.dictionary, self.meter)?;
        self.value.fit(self.meter)
    }

    /// A called name that means nothing is sought as a program, whose strings are defined.
    pub fn retrieve(&mut self, name: &[u8]) -> Result<(), Refusal> {
        match self.library.find(name) {
            Some(program) => fetch(self.code, program, self.dictionary, self.meter),
            None => Ok(()),
        }
    }

    pub fn names(&mut self) -> Result<(), Refusal> {
        let name = self.p(1);
        check_program_name(name)?;
        let program = self.library.find(name).ok_or(Refusal::ProgramAbsent)?;
        if !program.strings.iter().all(|string| self.code.is_proper_name(&string.name)) {
            return Err(Refusal::ForeignText);
        }
        for (k, string) in program.strings.iter().enumerate() {
            if k > 0 {
                self.value.push(&[self.code.named(b',')]);
            }
            self.value.push(&string.name);
        }
        self.value.fit(self.meter)
    }

    pub fn test_program(&mut self) -> Result<(), Refusal> {
        let name = self.p(1);
        check_program_name(name)?;
        self.choose(self.library.find(name).is_some(), self.p(2), self.p(3))
    }
}

/// Defines the strings of a program one by one; a refused one leaves those before it.
fn fetch(code: &Code, program: &Program, dictionary: &mut Dictionary, meter: &mut Meter) -> Result<(), Refusal> {
    for NamedString { name, body } in &program.strings {
        if !code.is_proper_name(name) || !code.is_proper_body(body) {
            return Err(Refusal::ForeignText);
        }
        let size = dictionary.size_after(name, body.len());
        meter.names(size.names)?;
        meter.store(size.bytes)?;
        dictionary.define(name, Meaning::String(Str::new(body)));
    }
    Ok(())
}
