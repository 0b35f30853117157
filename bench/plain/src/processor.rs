use crate::code::Code;
use crate::dictionary::{Dictionary, Meaning};
use crate::expansion::Expansion;
use crate::library::Library;
use crate::meter::{Amounts, Meter};
use crate::refusal::Refusal;
use crate::scan::Scan;

pub const LARGEST_LIMITS: Amounts = Amounts { names: 128, roll: 256, store: 32768, scan: 32768, print: 32768 };
pub const LARGEST_ALLOWANCE: usize = 1_000_000;

/// The lengths of the areas that a host offers.
#[derive(Clone, Copy)]
pub struct Areas {
    pub store: usize,
    pub scan: usize,
    pub print: usize,
}

/// What an expansion answers.
pub struct Reply<'a> {
    pub refusal: Option<Refusal>,
    /// The text, or the name of the call that was refused.
    pub text: &'a [u8],
    pub printed: &'a [u8],
    pub steps: usize,
    pub needs: Amounts,
}

/// What a look finds.
pub enum Finding<'a> {
    Absent,
    BuiltIn,
    /// The body from the residual pointer on.
    String(&'a [u8]),
}

pub struct Processor {
    code: &'static Code,
    limits: Amounts,
    dictionary: Dictionary,
    /// How many numbers were created.
    created: u16,
    scan: Scan,
    printed: Vec<u8>,
}

impl Processor {
    pub fn make(code: &'static Code, limits: Amounts) -> Result<Processor, Refusal> {
        let most = LARGEST_LIMITS;
        if limits.names > most.names
            || limits.roll > most.roll
            || limits.store > most.store
            || limits.scan > most.scan
            || limits.print > most.print
        {
            return Err(Refusal::LimitOutOfRange);
        }
        let scan = Scan::new(limits.scan, limits.roll);
        Ok(Processor { code, limits, dictionary: Dictionary::new(code), created: 0, scan, printed: Vec::with_capacity(limits.print) })
    }

    /// Expands a source with the programs of a library.
    pub fn expand(&mut self, library: &mut Library, allowance: usize, source: &[u8], areas: Areas) -> Reply<'_> {
        if let Err(refusal) = self.check_expand(allowance, source, areas) {
            return Reply { refusal: Some(refusal), text: &[], printed: &[], steps: 0, needs: Amounts::default() };
        }
        self.printed.clear();
        let mut expansion = Expansion {
            code: self.code,
            dictionary: &mut self.dictionary,
            library,
            created: &mut self.created,
            printed: &mut self.printed,
            scan: &mut self.scan,
            meter: Meter::new(self.limits, allowance),
        };
        let refusal = expansion.run(source).err();
        let (steps, needs) = (expansion.meter.steps, expansion.meter.needs);
        Reply { refusal, text: shown(&mut self.scan, refusal), printed: &self.printed, steps, needs }
    }

    fn check_expand(&self, allowance: usize, source: &[u8], areas: Areas) -> Result<(), Refusal> {
        if areas.store < self.limits.store || areas.scan < self.limits.scan || areas.print < self.limits.print {
            return Err(Refusal::AreaTooShort);
        }
        if allowance > LARGEST_ALLOWANCE {
            return Err(Refusal::AllowanceOutOfRange);
        }
        if source.iter().all(|&byte| self.code.is_ranked(byte)) { Ok(()) } else { Err(Refusal::ForeignSource) }
    }

    /// What a name means, seen with a store area of so many bytes.
    pub fn look(&self, name: &[u8], store: usize) -> Result<Finding<'_>, Refusal> {
        if store < self.limits.store {
            return Err(Refusal::AreaTooShort);
        }
        Ok(match self.dictionary.meaning(name) {
            None => Finding::Absent,
            Some(Meaning::String(string)) => Finding::String(string.rest()),
            Some(_) => Finding::BuiltIn,
        })
    }
}

/// The text, or the called name of a refusal that arose in a call.
fn shown(scan: &mut Scan, refusal: Option<Refusal>) -> &[u8] {
    match refusal {
        None => scan.left_text(),
        Some(refusal) if refusal.is_of_a_call() => {
            scan.show_name();
            scan.left_text()
        }
        Some(_) => &[],
    }
}
