//! DCL DNCL ECL CCL SCL TCL

use crate::call::Call;
use crate::refusal::Refusal;

const MOST_CLASSES: usize = 16;

impl Call<'_> {
    fn define_members(&mut self, members: [bool; 256]) -> Result<(), Refusal> {
        let name = self.p(1);
        let (classes, bytes) = self.dictionary.size_after_class(name);
        if classes > MOST_CLASSES {
            return Err(Refusal::TooManyClasses);
        }
        self.meter.store(bytes)?;
        self.value.fit(self.meter)?;
        self.dictionary.define_class(name, members);
        Ok(())
    }

    pub fn define_class(&mut self) -> Result<(), Refusal> {
        let mut members = [false; 256];
        for &byte in self.p(2) {
            members[byte as usize] = true;
        }
        self.define_members(members)
    }

    pub fn define_negative_class(&mut self) -> Result<(), Refusal> {
        let mut members = std::array::from_fn(|byte| self.code.is_ranked(byte as u8));
        for &byte in self.p(2) {
            members[byte as usize] = false;
        }
        self.define_members(members)
    }

    pub fn erase_classes(&mut self) -> Result<(), Refusal> {
        self.value.fit(self.meter)?;
        for name in self.fields.from(0) {
            self.dictionary.erase_class(name);
        }
        Ok(())
    }

    /// How long the run of members of the class p1 is at the pointer of the string p2.
    fn class_run(&self) -> Result<usize, Refusal> {
        let members = self.dictionary.class(self.p(1))?;
        let rest = self.dictionary.string(self.p(2))?.rest();
        Ok(rest.iter().position(|&byte| !members[byte as usize]).unwrap_or(rest.len()))
    }

    pub fn call_class(&mut self) -> Result<(), Refusal> {
        let run = self.class_run()?;
        let string = self.dictionary.string_mut(self.fields.parameter(1))?;
        self.value.push(&string.rest()[..run]);
        self.value.fit(self.meter)?;
        string.pointer += run;
        Ok(())
    }

    pub fn skip_class(&mut self) -> Result<(), Refusal> {
        let run = self.class_run()?;
        self.value.fit(self.meter)?;
        self.dictionary.string_mut(self.fields.parameter(1))?.pointer += run;
        Ok(())
    }

    pub fn test_class(&mut self) -> Result<(), Refusal> {
        let member = self.class_run()? > 0;
        self.choose(member, self.p(3), self.p(4))
    }
}
