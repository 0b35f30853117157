//! GN FLIP TRL NORM

use crate::call::Call;
use crate::number::{check_digits, read_integer};
use crate::refusal::Refusal;

impl Call<'_> {
    pub fn give(&mut self) -> Result<(), Refusal> {
        let number = read_integer(self.code, self.p(1))?;
        check_digits(&number, 9)?;
        let text = self.p(2);
        let (first, others) = text.split_at(text.len().min(number.value.unsigned_abs() as usize));
        self.answer(if number.value < 0 { others } else { first })
    }

    pub fn flip(&mut self) -> Result<(), Refusal> {
        self.value.push_bytes(self.fields.parameter(0).iter().rev().copied());
        self.value.fit(self.meter)
    }

    pub fn lower(&mut self) -> Result<(), Refusal> {
        self.value.push_bytes(self.fields.parameter(0).iter().map(|&byte| self.code.lower(byte)));
        self.value.fit(self.meter)
    }

    pub fn norm(&mut self) -> Result<(), Refusal> {
        self.answer_integer(self.p(1).len() as i64)
    }
}
