use crate::code::Code;
use crate::refusal::Refusal;
use crate::value::Value;

/// A decimal integer as it is written.
pub struct Numeral {
    signed: bool,
    digits: usize,
    /// Its value, if it has at most 18 digits.
    pub value: i64,
}

/// Nothing, which is 0; or an optional sign and at least one digit.
pub fn read_integer(code: &Code, text: &[u8]) -> Result<Numeral, Refusal> {
    let (signed, negative, digits) = match text {
        [] => return Ok(Numeral { signed: false, digits: 0, value: 0 }),
        [sign, digits @ ..] if *sign == code.named(b'-') => (true, true, digits),
        [sign, digits @ ..] if *sign == code.named(b'+') => (true, false, digits),
        _ => (false, false, text),
    };
    let size = read_digits(code, digits).ok_or(Refusal::NoInteger)?;
    Ok(Numeral { signed, digits: digits.len(), value: if negative { size.wrapping_neg() } else { size } })
}

/// At least one digit; the digits of both codes are consecutive bytes.
fn read_digits(code: &Code, digits: &[u8]) -> Option<i64> {
    let zero = code.named(b'0');
    let add = |value: i64, &byte: &u8| {
        let digit = byte.wrapping_sub(zero);
        (digit < 10).then(|| value.wrapping_mul(10).wrapping_add(i64::from(digit)))
    };
    if digits.is_empty() { None } else { digits.iter().try_fold(0, add) }
}

pub fn check_digits(number: &Numeral, most: usize) -> Result<(), Refusal> {
    if number.digits <= most { Ok(()) } else { Err(Refusal::TooManyDigits) }
}

/// An integer without a sign, of at most 9 digits.
pub fn count(code: &Code, text: &[u8]) -> Result<usize, Refusal> {
    let number = read_integer(code, text)?;
    if number.signed {
        return Err(Refusal::SignedInteger);
    }
    check_digits(&number, 9)?;
    Ok(number.value as usize)
}

impl Value<'_> {
    /// Without leading zeros, and with a minus sign before a negative one.
    pub fn push_integer(&mut self, code: &Code, number: i64) {
        let mut bytes = [0; 20];
        let mut begin = bytes.len();
        let mut left = number.unsigned_abs();
        loop {
            begin -= 1;
            bytes[begin] = code.named(b'0' + (left % 10) as u8);
            left /= 10;
            if left == 0 {
                break;
            }
        }
        if number < 0 {
            begin -= 1;
            bytes[begin] = code.named(b'-');
        }
        self.push(&bytes[begin..]);
    }
}
