//! EQ GT LT EQ? GT? LT?

use std::cmp::Ordering;

use crate::call::Call;
use crate::refusal::Refusal;

impl<'a> Call<'a> {
    pub fn compare_numbers(&mut self, test: impl FnOnce(Ordering) -> bool) -> Result<(), Refusal> {
        let (x, y) = self.two_integers(15, 15)?;
        self.choose(test(x.cmp(&y)), self.p(3), self.p(4))
    }

    /// By the ranks of the bytes; a text that ends first is lower. Equal ranks are equal bytes.
    pub fn compare_texts(&mut self, test: impl FnOnce(Ordering) -> bool) -> Result<(), Refusal> {
        let code = self.code;
        let ranks = |text: &'a [u8]| text.iter().map(|&byte| code.rank(byte));
        let order = ranks(self.p(1)).cmp(ranks(self.p(2)));
        self.choose(test(order), self.p(3), self.p(4))
    }
}
