//! Lists of calls of which one in so many is made.

use crate::checker::Checker;

pub struct Thinned<'a> {
    checker: &'a mut Checker,
    one_in: usize,
    met: usize,
}

impl<'a> Thinned<'a> {
    pub fn new(checker: &'a mut Checker) -> Self {
        Self {
            checker,
            one_in: 1,
            met: 0,
        }
    }

    pub fn one_in(&mut self, one_in: usize) -> &mut Self {
        self.one_in = one_in;
        self
    }

    /// The next call of the list is met: the checker, where it is to be made.
    pub fn asked(&mut self) -> Option<&mut Checker> {
        self.met += 1;
        let asked = self.met.is_multiple_of(self.one_in);
        asked.then_some(&mut *self.checker)
    }
}
