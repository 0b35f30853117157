use std::ops::RangeInclusive;
use std::sync::LazyLock;

/// What a byte is.
#[derive(Clone, Copy, Debug, PartialEq, Eq)]
pub enum Kind {
    Foreign,
    Character,
    EndOfLine,
    /// With its number, 1 to 62.
    SegmentMark(u8),
    CreationMark,
}

/// What a byte is to the scan.
#[derive(Clone, Copy, Debug, PartialEq, Eq)]
pub enum Sign {
    Plain,
    EndOfLine,
    At,
    Hash,
    Less,
    Semicolon,
    Greater,
}

/// A character code, as tables over all bytes.
pub struct Code {
    pub number: u8,
    pub end_of_line: u8,
    pub creation_mark: u8,
    kinds: [Kind; 256],
    marks: [bool; 256],
    signs: [Sign; 256],
    ranks: [u8; 256],
    lower: [u8; 256],
    /// The byte of each character, by its ASCII byte.
    named: [u8; 128],
    segment_marks: [u8; 63],
}

static ASCII: LazyLock<Code> = LazyLock::new(ascii);
static EBCDIC: LazyLock<Code> = LazyLock::new(ebcdic);

impl Code {
    pub fn ascii() -> &'static Code {
        &ASCII
    }

    pub fn ebcdic() -> &'static Code {
        &EBCDIC
    }

    pub fn kind(&self, byte: u8) -> Kind {
        self.kinds[byte as usize]
    }

    pub fn sign(&self, byte: u8) -> Sign {
        self.signs[byte as usize]
    }

    pub fn is_mark(&self, byte: u8) -> bool {
        self.marks[byte as usize]
    }

    /// May it stand in a source?
    pub fn is_ranked(&self, byte: u8) -> bool {
        matches!(self.kind(byte), Kind::Character | Kind::EndOfLine)
    }

    pub fn is_proper_name(&self, text: &[u8]) -> bool {
        text.iter().all(|&byte| self.kind(byte) == Kind::Character)
    }

    pub fn is_proper_body(&self, text: &[u8]) -> bool {
        text.iter().all(|&byte| self.kind(byte) != Kind::Foreign)
    }

    pub fn rank(&self, byte: u8) -> u8 {
        self.ranks[byte as usize]
    }

    pub fn lower(&self, byte: u8) -> u8 {
        self.lower[byte as usize]
    }

    /// The byte of a named character, which is given in ASCII.
    pub fn named(&self, ascii: u8) -> u8 {
        self.named[ascii as usize]
    }

    /// Segment mark `number`, which is 1 to 62.
    pub fn segment_mark(&self, number: u8) -> u8 {
        self.segment_marks[number as usize]
    }

    /// A code with these characters; `named` gives the byte of each named character by its ASCII byte.
    fn new(
        number: u8,
        characters: RangeInclusive<u8>,
        end_of_line: u8,
        creation_mark: u8,
        segment_marks: [u8; 63],
        named: [u8; 128],
    ) -> Code {
        let mut kinds = [Kind::Foreign; 256];
        for byte in characters {
            kinds[byte as usize] = Kind::Character;
        }
        kinds[end_of_line as usize] = Kind::EndOfLine;
        kinds[creation_mark as usize] = Kind::CreationMark;
        for mark in 1..=62 {
            kinds[segment_marks[mark] as usize] = Kind::SegmentMark(mark as u8);
        }
        let bytes: [u8; 256] = std::array::from_fn(|byte| byte as u8);
        let signs = signs(end_of_line, &named);
        let marks = kinds.map(|kind| matches!(kind, Kind::SegmentMark(_) | Kind::CreationMark));
        Code { number, end_of_line, creation_mark, kinds, marks, signs, ranks: bytes, lower: bytes, named, segment_marks }
    }

    /// Lower case adds `distance` to each of these capitals.
    fn lowering(mut self, capitals: RangeInclusive<u8>, distance: i16) -> Code {
        for byte in capitals {
            self.lower[byte as usize] = (i16::from(byte) + distance) as u8;
        }
        self
    }

    /// Bytes rank in this order.
    fn ranking(mut self, order: impl Iterator<Item = u8>) -> Code {
        for (rank, byte) in order.enumerate() {
            self.ranks[byte as usize] = rank as u8;
        }
        self
    }
}

fn signs(end_of_line: u8, named: &[u8; 128]) -> [Sign; 256] {
    let mut signs = [Sign::Plain; 256];
    signs[end_of_line as usize] = Sign::EndOfLine;
    for (ascii, sign) in [(b'@', Sign::At), (b'#', Sign::Hash), (b'<', Sign::Less), (b';', Sign::Semicolon), (b'>', Sign::Greater)] {
        signs[named[ascii as usize] as usize] = sign;
    }
    signs
}

fn ascii() -> Code {
    let segment_marks = std::array::from_fn(|n| 0x80 + n as u8);
    let order = [0x0A].into_iter().chain(0x20..=0x2F).chain(0x3A..=0x40).chain(0x5B..=0x60).chain(0x7B..=0x7E);
    let order = order.chain(b'a'..=b'z').chain(b'A'..=b'Z').chain(b'0'..=b'9');
    Code::new(1, 0x20..=0x7E, 0x0A, 0xC0, segment_marks, std::array::from_fn(|ascii| ascii as u8))
        .lowering(b'A'..=b'Z', 0x20)
        .ranking(order)
}

fn ebcdic() -> Code {
    let segment_marks = std::array::from_fn(|n| if n <= 20 { n as u8 } else { n as u8 + 1 });
    let mut named = [0; 128];
    let runs: [(u8, u8, u8); 7] = [
        (b'a', b'i', 0x81),
        (b'j', b'r', 0x91),
        (b's', b'z', 0xA2),
        (b'A', b'I', 0xC1),
        (b'J', b'R', 0xD1),
        (b'S', b'Z', 0xE2),
        (b'0', b'9', 0xF0),
    ];
    let signs: [(u8, u8); 9] =
        [(b'#', 0x7B), (b'<', 0x4C), (b'>', 0x6E), (b';', 0x5E), (b'@', 0x7C), (b',', 0x6B), (b'+', 0x4E), (b'-', 0x60), (b'?', 0x6F)];
    for (first, last, byte) in runs.into_iter().chain(signs.map(|(ascii, byte)| (ascii, ascii, byte))) {
        for ascii in first..=last {
            named[ascii as usize] = byte + (ascii - first);
        }
    }
    Code::new(2, 0x40..=0xF9, 0x15, 0xFA, segment_marks, named)
        .lowering(0xC1..=0xC9, -0x40)
        .lowering(0xD1..=0xD9, -0x40)
        .lowering(0xE2..=0xE9, -0x40)
}
