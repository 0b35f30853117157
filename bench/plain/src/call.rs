use crate::built_in::BuiltIn;
use crate::code::{Code, Kind};
use crate::dictionary::{Dictionary, Meaning};
use crate::library::Library;
use crate::meter::Meter;
use crate::refusal::Refusal;
use crate::scan::Fields;
use crate::value::Value;

const LAST_CREATED: u16 = 9999;

/// A call that is made: its name and parameters, all that it may read or change, and its value.
///
/// Each function puts its questions, writes its value, asks whether that fits, and only then changes anything.
pub struct Call<'a> {
    pub code: &'static Code,
    pub dictionary: &'a mut Dictionary,
    pub library: &'a mut Library,
    pub created: &'a mut u16,
    pub printed: &'a mut Vec<u8>,
    pub meter: &'a mut Meter,
    pub fields: Fields<'a>,
    pub value: Value<'a>,
}

/// How long the value is that a call has written, and where it goes.
pub enum Made {
    /// To the left or to the right, as the call is passive or active.
    Value(usize),
    /// It becomes the right text.
    Break(usize),
}

impl<'a> Call<'a> {
    pub fn make(mut self) -> Result<Made, Refusal> {
        let name = self.fields.name();
        let meaning = match self.dictionary.meaning(name) {
            Some(meaning) => meaning,
            None => {
                self.retrieve(name)?;
                self.dictionary.meaning(name).ok_or(Refusal::FunctionUndefined)?
            }
        };
        let function = match meaning {
            Meaning::Original(function) | Meaning::Copied(function) => *function,
            Meaning::String(string) => {
                let numbered = fill(self.code, string.rest(), self.fields, *self.created + 1, &mut self.value);
                return self.deliver_string(numbered);
            }
        };
        if self.fields.count() < function.least() {
            return Err(Refusal::TooFewParameters);
        }
        self.apply(function)?;
        let length = self.value.length();
        Ok(if function == BuiltIn::Break { Made::Break(length) } else { Made::Value(length) })
    }

    fn deliver_string(self, numbered: bool) -> Result<Made, Refusal> {
        if numbered && *self.created == LAST_CREATED {
            return Err(Refusal::NoCreatedNumber);
        }
        self.value.fit(self.meter)?;
        *self.created += u16::from(numbered);
        Ok(Made::Value(self.value.length()))
    }

    /// Parameter `k`, counted from 1.
    pub fn p(&self, k: usize) -> &'a [u8] {
        self.fields.parameter(k - 1)
    }

    /// The value is this text, and nothing changes.
    pub fn answer(&mut self, text: &[u8]) -> Result<(), Refusal> {
        self.value.push(text);
        self.value.fit(self.meter)
    }

    /// The value is one of two texts.
    pub fn choose(&mut self, so: bool, yes: &[u8], no: &[u8]) -> Result<(), Refusal> {
        self.answer(if so { yes } else { no })
    }

    fn apply(&mut self, function: BuiltIn) -> Result<(), Refusal> {
        match function {
            BuiltIn::Ds => self.define_string(),
            BuiltIn::Ap => self.append(),
            BuiltIn::Es => self.erase(),
            BuiltIn::Cf => self.copy_function(),
            BuiltIn::Ss => self.segment(false),
            BuiltIn::Sc => self.segment(true),
            BuiltIn::Cr => self.mark_for_creation(),
            BuiltIn::Cc => self.call_characters(1, self.p(1)),
            BuiltIn::Cn => self.call_counted(),
            BuiltIn::Sn => self.skip_counted(),
            BuiltIn::Isc => self.initial_scan(),
            BuiltIn::Scn => self.scan_for(),
            BuiltIn::Cp => self.call_parameter(),
            BuiltIn::Cs => self.call_segment(),
            BuiltIn::Rrp => self.reset_pointer(),
            BuiltIn::Eos => self.test_end(),
            BuiltIn::Gn => self.give(),
            BuiltIn::Flip => self.flip(),
            BuiltIn::Trl => self.lower(),
            BuiltIn::Norm => self.norm(),
            BuiltIn::Dcl => self.define_class(),
            BuiltIn::Dncl => self.define_negative_class(),
            BuiltIn::Ecl => self.erase_classes(),
            BuiltIn::Ccl => self.call_class(),
            BuiltIn::Scl => self.skip_class(),
            BuiltIn::Tcl => self.test_class(),
            _ => self.apply_other(function),
        }
    }

    fn apply_other(&mut self, function: BuiltIn) -> Result<(), Refusal> {
        match function {
            BuiltIn::Ad => self.add(),
            BuiltIn::Su => self.subtract(),
            BuiltIn::Mu => self.multiply(),
            BuiltIn::Dv => self.divide(|x, y| x / y),
            BuiltIn::Dvr => self.divide(|x, y| x % y),
            BuiltIn::Abs => self.absolute(),
            BuiltIn::Eq => self.compare_numbers(|order| order.is_eq()),
            BuiltIn::Gt => self.compare_numbers(|order| order.is_gt()),
            BuiltIn::Lt => self.compare_numbers(|order| order.is_lt()),
            BuiltIn::EqText => self.compare_texts(|order| order.is_eq()),
            BuiltIn::GtText => self.compare_texts(|order| order.is_gt()),
            BuiltIn::LtText => self.compare_texts(|order| order.is_lt()),
            BuiltIn::Store => self.store(),
            BuiltIn::Delete => self.delete(),
            BuiltIn::Copy => self.copy(),
            BuiltIn::Names => self.names(),
            BuiltIn::Pdf => self.test_program(),
            BuiltIn::Ndf => self.test_name(),
            BuiltIn::Ps => self.print(),
            _ => self.answer(self.p(1)),
        }
    }
}

/// Writes the value of a string: parameters for its segment marks, and the number in four digits for its creation marks.
/// Says whether it has any of these.
fn fill(code: &Code, rest: &[u8], fields: Fields, number: u16, value: &mut Value) -> bool {
    let mut numbered = false;
    let mut rest = rest;
    while let Some(at) = rest.iter().position(|&byte| code.is_mark(byte)) {
        value.push(&rest[..at]);
        match code.kind(rest[at]) {
            Kind::SegmentMark(n) => value.push(fields.parameter(usize::from(n) - 1)),
            _ => {
                value.push(&four_digits(code, number));
                numbered = true;
            }
        }
        rest = &rest[at + 1..];
    }
    value.push(rest);
    numbered
}

fn four_digits(code: &Code, number: u16) -> [u8; 4] {
    [1000, 100, 10, 1].map(|power| code.named(b'0' + (number / power % 10) as u8))
}
