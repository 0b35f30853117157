use crate::refusal::Refusal;

/// An amount of each thing that is limited.
#[derive(Clone, Copy, Debug, Default, PartialEq, Eq)]
pub struct Amounts {
    pub names: usize,
    pub roll: usize,
    pub store: usize,
    pub scan: usize,
    pub print: usize,
}

/// Compares the needs of an expansion with its limits, and keeps the largest of each.
pub struct Meter {
    limits: Amounts,
    allowance: usize,
    pub needs: Amounts,
    pub steps: usize,
}

impl Meter {
    pub fn new(limits: Amounts, allowance: usize) -> Meter {
        Meter { limits, allowance, needs: Amounts::default(), steps: 0 }
    }

    /// How many steps are left, if there is one.
    pub fn steps_left(&self) -> Result<usize, Refusal> {
        if self.steps == self.allowance { Err(Refusal::OutOfSteps) } else { Ok(self.allowance - self.steps) }
    }

    pub fn step(&mut self) -> Result<(), Refusal> {
        self.steps_left()?;
        self.steps += 1;
        Ok(())
    }

    /// So many steps, which are left.
    pub fn pass_steps(&mut self, steps: usize) {
        self.steps += steps;
    }

    pub fn source(&mut self, need: usize) -> Result<(), Refusal> {
        let_pass(need, self.limits.scan, &mut self.needs.scan, Refusal::SourceTooLong)
    }

    pub fn roll(&mut self, need: usize) -> Result<(), Refusal> {
        let_pass(need, self.limits.roll, &mut self.needs.roll, Refusal::RollFull)
    }

    pub fn names(&mut self, need: usize) -> Result<(), Refusal> {
        let_pass(need, self.limits.names, &mut self.needs.names, Refusal::NamesFull)
    }

    pub fn store(&mut self, need: usize) -> Result<(), Refusal> {
        let_pass(need, self.limits.store, &mut self.needs.store, Refusal::StoreFull)
    }

    pub fn print(&mut self, need: usize) -> Result<(), Refusal> {
        let_pass(need, self.limits.print, &mut self.needs.print, Refusal::PrintFull)
    }

    pub fn scan(&mut self, need: usize) -> Result<(), Refusal> {
        let_pass(need, self.limits.scan, &mut self.needs.scan, Refusal::ScanFull)
    }
}

fn let_pass(need: usize, limit: usize, largest: &mut usize, shortage: Refusal) -> Result<(), Refusal> {
    if need > limit {
        return Err(shortage);
    }
    *largest = need.max(*largest);
    Ok(())
}
