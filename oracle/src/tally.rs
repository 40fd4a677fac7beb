//! Counts of checks, and the last line that every command of checks prints.

#[derive(Default)]
pub struct Tally {
    passed: usize,
    failed: usize,
}

impl Tally {
    /// Counts one check and names it if it failed.
    pub fn check(&mut self, passed: bool, name: impl std::fmt::Display) {
        if passed {
            self.passed += 1;
        } else {
            self.failed += 1;
            println!("failed: {name}");
        }
    }

    /// Prints the counts; true when there was a check and none failed.
    pub fn report(&self) -> bool {
        println!("{} passed, {} failed", self.passed, self.failed);
        self.failed == 0 && self.passed > 0
    }
}
