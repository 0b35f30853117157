use crate::call::{Call, Made};
use crate::code::{Code, Sign};
use crate::dictionary::Dictionary;
use crate::library::Library;
use crate::meter::Meter;
use crate::refusal::Refusal;
use crate::scan::{Begins, Scan};

/// An expansion on its way.
pub struct Expansion<'a> {
    pub code: &'static Code,
    pub dictionary: &'a mut Dictionary,
    pub library: &'a mut Library,
    pub created: &'a mut u16,
    pub printed: &'a mut Vec<u8>,
    pub scan: &'a mut Scan,
    pub meter: Meter,
}

impl Expansion<'_> {
    /// Scans a source to its end.
    pub fn run(&mut self, source: &[u8]) -> Result<(), Refusal> {
        self.meter.source(source.len())?;
        self.scan.start(source);
        while let Some(&byte) = self.scan.right_text().first() {
            match self.code.sign(byte) {
                Sign::Plain => self.pass_plain()?,
                sign => {
                    self.meter.step()?;
                    self.step(sign)?;
                }
            }
        }
        if self.scan.is_inside_a_call() { Err(Refusal::CallOpen) } else { Ok(()) }
    }

    /// The run of plain bytes at the front of the right text, as far as steps are left: each byte is one step.
    fn pass_plain(&mut self) -> Result<(), Refusal> {
        let most = self.meter.steps_left()?;
        let run = self.scan.pass_plain(self.code, most);
        self.meter.pass_steps(run);
        Ok(())
    }

    /// One rule, by the first byte of the right text.
    fn step(&mut self, sign: Sign) -> Result<(), Refusal> {
        match sign {
            Sign::EndOfLine => self.scan.drop(1),
            Sign::At => self.escape(),
            Sign::Hash => return self.hash(),
            Sign::Less => return self.scan.unbracket(self.code),
            Sign::Semicolon if self.scan.is_inside_a_call() => return self.open(Begins::Parameter, 1),
            Sign::Greater if self.scan.is_inside_a_call() => return self.make_call(),
            Sign::Semicolon | Sign::Greater | Sign::Plain => self.scan.pass(1),
        }
        Ok(())
    }

    fn escape(&mut self) {
        self.scan.drop(1);
        self.scan.pass(self.scan.right_text().len().min(1));
    }

    fn hash(&mut self) -> Result<(), Refusal> {
        let right = self.scan.right_text();
        let next = |k: usize| right.get(k).map(|&byte| self.code.sign(byte));
        match (next(1), next(2)) {
            (Some(Sign::Hash), Some(Sign::Less)) => self.open(Begins::PassiveCall, 3),
            (Some(Sign::Less), _) => self.open(Begins::ActiveCall, 2),
            _ => {
                self.scan.pass(1);
                Ok(())
            }
        }
    }

    fn open(&mut self, begins: Begins, bytes: usize) -> Result<(), Refusal> {
        self.scan.enter(begins, &mut self.meter)?;
        self.scan.drop(bytes);
        Ok(())
    }

    fn make_call(&mut self) -> Result<(), Refusal> {
        self.scan.drop(1);
        let (fields, value) = self.scan.call();
        let call = Call {
            code: self.code,
            dictionary: self.dictionary,
            library: self.library,
            created: self.created,
            printed: self.printed,
            meter: &mut self.meter,
            fields,
            value,
        };
        match call.make()? {
            Made::Value(length) => self.scan.deliver(length),
            Made::Break(length) => self.scan.break_off(length),
        }
        Ok(())
    }
}
