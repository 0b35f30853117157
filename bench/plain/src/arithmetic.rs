//! AD SU MU DV DVR ABS

use crate::call::Call;
use crate::number::{check_digits, read_integer};
use crate::refusal::Refusal;

const FIFTEEN_DIGITS: i64 = 1_000_000_000_000_000;

impl Call<'_> {
    pub fn answer_integer(&mut self, number: i64) -> Result<(), Refusal> {
        self.value.push_integer(self.code, number);
        self.value.fit(self.meter)
    }

    /// The first two parameters, of at most so many digits.
    pub fn two_integers(&self, most_of_p1: usize, most_of_p2: usize) -> Result<(i64, i64), Refusal> {
        let (x, y) = (read_integer(self.code, self.p(1))?, read_integer(self.code, self.p(2))?);
        check_digits(&x, most_of_p1)?;
        check_digits(&y, most_of_p2)?;
        Ok((x.value, y.value))
    }

    pub fn add(&mut self) -> Result<(), Refusal> {
        let (x, y) = self.two_integers(15, 15)?;
        self.answer_integer((x + y) % FIFTEEN_DIGITS)
    }

    pub fn subtract(&mut self) -> Result<(), Refusal> {
        let (x, y) = self.two_integers(15, 15)?;
        self.answer_integer((x - y) % FIFTEEN_DIGITS)
    }

    pub fn multiply(&mut self) -> Result<(), Refusal> {
        let (x, y) = self.two_integers(9, 9)?;
        self.answer_integer(x * y)
    }

    /// DV and DVR; there has to be a quotient, of at most 15 digits.
    pub fn divide(&mut self, result: impl FnOnce(i64, i64) -> i64) -> Result<(), Refusal> {
        let (x, y) = self.two_integers(18, 15)?;
        if y == 0 || (x / y).abs() >= FIFTEEN_DIGITS {
            return Err(Refusal::NoQuotient);
        }
        self.answer_integer(result(x, y))
    }

    pub fn absolute(&mut self) -> Result<(), Refusal> {
        let number = read_integer(self.code, self.p(1))?;
        check_digits(&number, 15)?;
        self.answer_integer(number.value.abs())
    }
}
