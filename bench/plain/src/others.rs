//! NDF PS

use crate::call::Call;
use crate::refusal::Refusal;

const LINE: usize = 132;

impl Call<'_> {
    pub fn test_name(&mut self) -> Result<(), Refusal> {
        self.choose(self.dictionary.meaning(self.p(1)).is_some(), self.p(2), self.p(3))
    }

    pub fn print(&mut self) -> Result<(), Refusal> {
        let before = self.printed.len();
        print_lines(self.p(1), self.code.end_of_line, self.printed);
        let fits = self.meter.print(self.printed.len()).and_then(|()| self.value.fit(self.meter));
        if fits.is_err() {
            self.printed.truncate(before);
        }
        fits
    }
}

/// Cuts a text at each end of line, and prints each piece.
fn print_lines(text: &[u8], end_of_line: u8, printed: &mut Vec<u8>) {
    for piece in text.split(|&byte| byte == end_of_line) {
        print_piece(piece, end_of_line, printed);
    }
}

/// Cuts a piece every 132 bytes, and prints each part, or the one empty part, with an end of line.
fn print_piece(piece: &[u8], end_of_line: u8, printed: &mut Vec<u8>) {
    if piece.is_empty() {
        printed.push(end_of_line);
    }
    for part in piece.chunks(LINE) {
        printed.extend_from_slice(part);
        printed.push(end_of_line);
    }
}
