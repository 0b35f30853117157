/// Why a call is refused. docs/REFUSALS.md has the questions.
#[derive(Clone, Copy, Debug, PartialEq, Eq, PartialOrd, Ord)]
#[repr(u8)]
pub enum Refusal {
    LimitOutOfRange = 1,
    WrongCode = 2,
    ContentsIncomplete = 3,
    ProgramNameMalformed = 4,
    ProgramSplit = 5,
    TextsMisfit = 6,
    ForeignByte = 7,
    AreaTooShort = 10,
    AllowanceOutOfRange = 11,
    ForeignSource = 12,
    SourceTooLong = 13,
    OutOfSteps = 14,
    RollFull = 15,
    Unmatched = 16,
    CallOpen = 17,
    FunctionUndefined = 18,
    TooFewParameters = 19,
    NoInteger = 20,
    SignedInteger = 21,
    TooManyDigits = 22,
    ClassUndefined = 23,
    NameUndefined = 24,
    NotAString = 25,
    ProgramNameLength = 26,
    Locked = 27,
    ProgramPresent = 28,
    ProgramAbsent = 29,
    LibraryFull = 30,
    ForeignText = 31,
    NoQuotient = 32,
    NoMarkNumber = 33,
    NoCreatedNumber = 34,
    TooManyClasses = 35,
    NamesFull = 36,
    StoreFull = 37,
    PrintFull = 38,
    ScanFull = 39,
}

impl Refusal {
    pub fn number(self) -> u8 {
        self as u8
    }

    /// Does it arise in a call, whose name is shown?
    pub fn is_of_a_call(self) -> bool {
        self >= Refusal::FunctionUndefined
    }
}
