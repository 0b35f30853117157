use crate::refusal::Refusal;

pub struct NamedString {
    pub name: Vec<u8>,
    pub body: Vec<u8>,
}

pub struct Program {
    pub name: Vec<u8>,
    pub strings: Vec<NamedString>,
}

/// Programs, strings and bytes: what a program takes, or what a library has left.
#[derive(Clone, Copy, Debug, Default, PartialEq, Eq)]
pub struct Space {
    pub programs: usize,
    pub strings: usize,
    pub bytes: usize,
}

impl Program {
    pub fn space(&self) -> Space {
        let bytes: usize = self.strings.iter().map(|string| string.name.len() + string.body.len()).sum();
        Space { programs: 1, strings: self.strings.len(), bytes: self.name.len() + bytes }
    }
}

impl Space {
    fn has_room_for(&self, wanted: &Space) -> bool {
        wanted.programs <= self.programs && wanted.strings <= self.strings && wanted.bytes <= self.bytes
    }
}

/// Is it 1 to 20 bytes long?
pub fn check_program_name(name: &[u8]) -> Result<(), Refusal> {
    if (1..=20).contains(&name.len()) { Ok(()) } else { Err(Refusal::ProgramNameLength) }
}

/// A library of programs: a shelf, or a locked one, which only reads.
pub struct Library {
    programs: Vec<Program>,
    space: Space,
    locked: bool,
}

impl Library {
    /// An empty shelf of 32 programs, 128 strings and 8,192 bytes.
    pub fn shelf() -> Library {
        Library { programs: Vec::new(), space: Space { programs: 32, strings: 128, bytes: 8192 }, locked: false }
    }

    pub fn locked(programs: Vec<Program>) -> Library {
        Library { programs, space: Space::default(), locked: true }
    }

    /// The same programs, locked and without space.
    pub fn into_locked(self) -> Library {
        Library::locked(self.programs)
    }

    pub fn programs(&self) -> &[Program] {
        &self.programs
    }

    pub fn space(&self) -> Space {
        self.space
    }

    pub fn is_locked(&self) -> bool {
        self.locked
    }

    pub fn find(&self, name: &[u8]) -> Option<&Program> {
        self.programs.iter().find(|program| program.name == name)
    }

    /// The questions of a store: locked, present, space.
    pub fn check_store(&self, program: &Program) -> Result<(), Refusal> {
        if self.locked {
            return Err(Refusal::Locked);
        }
        if self.find(&program.name).is_some() {
            return Err(Refusal::ProgramPresent);
        }
        if self.space.has_room_for(&program.space()) { Ok(()) } else { Err(Refusal::LibraryFull) }
    }

    pub fn store(&mut self, program: Program) -> Result<(), Refusal> {
        self.check_store(&program)?;
        let taken = program.space();
        self.space.programs -= taken.programs;
        self.space.strings -= taken.strings;
        self.space.bytes -= taken.bytes;
        self.programs.push(program);
        Ok(())
    }

    /// The place of a program that may be deleted.
    pub fn check_delete(&self, name: &[u8]) -> Result<usize, Refusal> {
        if self.locked {
            return Err(Refusal::Locked);
        }
        self.programs.iter().position(|program| program.name == name).ok_or(Refusal::ProgramAbsent)
    }

    pub fn delete(&mut self, name: &[u8]) -> Result<(), Refusal> {
        let place = self.check_delete(name)?;
        let returned = self.programs.remove(place).space();
        self.space.programs += returned.programs;
        self.space.strings += returned.strings;
        self.space.bytes += returned.bytes;
        Ok(())
    }
}
