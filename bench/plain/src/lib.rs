//! The TTM machine in plain Rust, for comparison with the proved processor. docs/LANGUAGE.md sets out the language.

mod arithmetic;
mod built_in;
mod call;
mod classes;
mod code;
mod comparisons;
mod dictionary;
mod expansion;
mod image;
mod libraries;
mod library;
mod marking;
mod meter;
mod number;
mod others;
mod processor;
mod refusal;
mod scan;
mod selection;
mod strings;
mod texts;
mod value;

pub use code::Code;
pub use library::{Library, NamedString, Program, Space, check_program_name};
pub use meter::Amounts;
pub use processor::{Areas, Finding, LARGEST_ALLOWANCE, LARGEST_LIMITS, Processor, Reply};
pub use refusal::Refusal;
