use std::collections::HashMap;
use std::hash::{BuildHasherDefault, Hasher};

use crate::built_in::{BuiltIn, TABLE};
use crate::code::Code;
use crate::refusal::Refusal;

/// A string, with the residual pointer: how many bytes of the body selection has passed.
pub struct Str {
    pub body: Vec<u8>,
    pub pointer: usize,
}

impl Str {
    pub fn new(body: &[u8]) -> Str {
        Str { body: body.to_vec(), pointer: 0 }
    }

    /// The body from the pointer on.
    pub fn rest(&self) -> &[u8] {
        &self.body[self.pointer..]
    }
}

/// What a name means.
pub enum Meaning {
    Original(BuiltIn),
    Copied(BuiltIn),
    String(Str),
}

impl Meaning {
    fn body_length(&self) -> usize {
        match self {
            Meaning::String(string) => string.body.len(),
            _ => 0,
        }
    }
}

/// A class of characters.
struct Class {
    name: Vec<u8>,
    members: [bool; 256],
}

/// FNV-1a: names are short, and at most a few hundred.
struct NameHasher(u64);

impl Default for NameHasher {
    fn default() -> NameHasher {
        NameHasher(0xcbf2_9ce4_8422_2325)
    }
}

impl Hasher for NameHasher {
    fn finish(&self) -> u64 {
        self.0
    }

    fn write(&mut self, bytes: &[u8]) {
        for &byte in bytes {
            self.0 = (self.0 ^ u64::from(byte)).wrapping_mul(0x0000_0100_0000_01b3);
        }
    }

    /// The length of a name; its lowest byte is enough.
    fn write_usize(&mut self, length: usize) {
        self.write(&[length as u8]);
    }
}

/// How large a dictionary is: strings and copied built-ins; bytes of names, of bodies and of the names of classes.
#[derive(Clone, Copy)]
pub struct Size {
    pub names: usize,
    pub bytes: usize,
}

/// The names of a processor: original built-ins, strings and copied built-ins; and the classes.
pub struct Dictionary {
    entries: HashMap<Vec<u8>, Meaning, BuildHasherDefault<NameHasher>>,
    classes: Vec<Class>,
    size: Size,
}

impl Dictionary {
    pub fn new(code: &Code) -> Dictionary {
        let mut entries = HashMap::with_capacity_and_hasher(TABLE.len() + 128, BuildHasherDefault::default());
        for (function, name, _) in TABLE {
            let name = name.iter().map(|&ascii| code.named(ascii)).collect();
            entries.insert(name, Meaning::Original(function));
        }
        Dictionary { entries, classes: Vec::with_capacity(16), size: Size { names: 0, bytes: 0 } }
    }

    pub fn meaning(&self, name: &[u8]) -> Option<&Meaning> {
        self.entries.get(name)
    }

    pub fn string(&self, name: &[u8]) -> Result<&Str, Refusal> {
        match self.entries.get(name) {
            None => Err(Refusal::NameUndefined),
            Some(Meaning::String(string)) => Ok(string),
            Some(_) => Err(Refusal::NotAString),
        }
    }

    /// A string whose pointer may be moved; its body is changed by `change_body` only.
    pub fn string_mut(&mut self, name: &[u8]) -> Result<&mut Str, Refusal> {
        match self.entries.get_mut(name) {
            None => Err(Refusal::NameUndefined),
            Some(Meaning::String(string)) => Ok(string),
            Some(_) => Err(Refusal::NotAString),
        }
    }

    /// The size once the name means something with so long a body.
    pub fn size_after(&self, name: &[u8], body_length: usize) -> Size {
        match self.entries.get(name) {
            None | Some(Meaning::Original(_)) => Size { names: self.size.names + 1, bytes: self.size.bytes + name.len() + body_length },
            Some(old) => Size { names: self.size.names, bytes: self.size.bytes - old.body_length() + body_length },
        }
    }

    /// A name means this now, whatever it meant.
    pub fn define(&mut self, name: &[u8], meaning: Meaning) {
        self.size.bytes += meaning.body_length();
        match self.entries.get_mut(name) {
            Some(old) => {
                if let Meaning::Original(_) = old {
                    self.size.names += 1;
                    self.size.bytes += name.len();
                }
                self.size.bytes -= old.body_length();
                *old = meaning;
            }
            None => {
                self.size.names += 1;
                self.size.bytes += name.len();
                self.entries.insert(name.to_vec(), meaning);
            }
        }
    }

    /// A name goes, whatever it means.
    pub fn erase(&mut self, name: &[u8]) {
        match self.entries.remove(name) {
            None | Some(Meaning::Original(_)) => {}
            Some(old) => {
                self.size.names -= 1;
                self.size.bytes -= name.len() + old.body_length();
            }
        }
    }

    /// Changes a string that is there.
    pub fn change_body(&mut self, name: &[u8], change: impl FnOnce(&mut Str)) {
        if let Some(Meaning::String(string)) = self.entries.get_mut(name) {
            self.size.bytes -= string.body.len();
            change(string);
            self.size.bytes += string.body.len();
        }
    }

    pub fn class(&self, name: &[u8]) -> Result<&[bool; 256], Refusal> {
        self.classes.iter().find(|class| class.name == name).map(|class| &class.members).ok_or(Refusal::ClassUndefined)
    }

    /// How many classes there are, and the bytes, once there is a class of that name.
    pub fn size_after_class(&self, name: &[u8]) -> (usize, usize) {
        match self.class(name) {
            Ok(_) => (self.classes.len(), self.size.bytes),
            Err(_) => (self.classes.len() + 1, self.size.bytes + name.len()),
        }
    }

    pub fn define_class(&mut self, name: &[u8], members: [bool; 256]) {
        match self.classes.iter_mut().find(|class| class.name == name) {
            Some(class) => class.members = members,
            None => {
                self.size.bytes += name.len();
                self.classes.push(Class { name: name.to_vec(), members });
            }
        }
    }

    pub fn erase_class(&mut self, name: &[u8]) {
        if let Some(place) = self.classes.iter().position(|class| class.name == name) {
            self.size.bytes -= name.len();
            self.classes.remove(place);
        }
    }
}
