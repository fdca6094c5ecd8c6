//! The step rules under their letters. A rule answers whether it applied.

use crate::machine::{Machine, Step};

/// How often a value stands in these.
fn count(values: &[u32], value: u32) -> usize {
    values.iter().filter(|&&other| other == value).count()
}

fn among(values: &[u32], value: u32) -> bool {
    values.contains(&value)
}

impl Machine<'_> {
    fn top(&self) -> Step<u32> {
        self.c(self.height() - 1)
    }

    /// The lowest position that rules may exchange with the top.
    fn floor(&self) -> usize {
        self.complete.max((self.height() - 1).saturating_sub(self.swap))
    }

    /// Where both stacks have a value.
    fn shared(&self) -> usize {
        self.height().min(self.target.len())
    }

    fn extra(&self, value: u32) -> bool {
        count(&self.current[self.complete..], value) > count(&self.target[self.complete..], value)
    }

    fn differs(&self, p: usize) -> bool {
        self.current[p] != self.target[p]
    }

    /// Moves the completed count up as far as it goes.
    pub fn count_completed(&mut self) {
        while self.complete < self.shared() {
            let p = self.complete;
            let value = self.target[p];
            let wanted_again = among(&self.target[p + 1..], value);
            if self.differs(p) || (wanted_again && !among(&self.current[p + 1..], value)) {
                return;
            }
            self.complete += 1;
        }
    }

    pub fn a(&mut self) -> Step<bool> {
        let top = self.top()?;
        let wanted = among(&self.target[self.complete..], top);
        if !wanted {
            self.pop()?;
        }
        Ok(!wanted)
    }

    pub fn b(&mut self) -> Step<bool> {
        let top = self.top()?;
        let place = (self.floor()..self.shared())
            .find(|&p| self.target[p] == top && self.current[p] != top);
        place.map(|p| self.swap_with(p)).transpose().map(|done| done.is_some())
    }

    pub fn c_rule(&mut self) -> Step<bool> {
        let extra = self.extra(self.top()?);
        if extra {
            self.pop()?;
        }
        Ok(extra)
    }

    pub fn d(&mut self) -> Step<bool> {
        let Some(p) = (self.floor()..self.height()).find(|&p| self.extra(self.current[p])) else {
            return Ok(false);
        };
        self.swap_with(p)?;
        self.pop()?;
        Ok(true)
    }

    pub fn e(&mut self) -> Step<bool> {
        let twice = count(&self.current[self.complete..], self.top()?) >= 2;
        if twice {
            self.pop()?;
        }
        Ok(twice)
    }

    pub fn x(&mut self) -> Step<bool> {
        let range = || self.floor()..self.shared();
        let source =
            |p: usize| range().find(|&q| self.differs(q) && self.current[q] == self.target[p]);
        let found = range().filter(|&p| self.differs(p)).find_map(|p| Some((source(p)?, p)));
        let Some((q, p)) = found else {
            return Ok(false);
        };
        self.swap_with(q)?;
        self.swap_with(p)?;
        Ok(true)
    }

    pub fn may_push(&self) -> Step<bool> {
        if self.height() <= self.swap {
            return Ok(true);
        }
        let h = self.height() - 1 - self.swap;
        let (here, wanted) = (self.c(h)?, self.t(h)?);
        if here != wanted {
            return Ok(false);
        }
        Ok(!among(&self.target[h + 1..], wanted)
            || among(&self.current[h + 1..], wanted)
            || self.stored(wanted).is_some())
    }

    pub fn u(&mut self) -> Step<bool> {
        if self.height() < self.swap {
            return Ok(false);
        }
        let k = self.height() - self.swap;
        let (here, wanted) = (self.c(k)?, self.t(k)?);
        if here == wanted || among(&self.current[k..], wanted) {
            return Ok(false);
        }
        self.load(wanted)?;
        Ok(true)
    }

    pub fn v(&mut self) -> Step<bool> {
        if self.height() == 0 {
            return Ok(false);
        }
        let s = self.height() - 1 - self.dup.min(self.height() - 1);
        let short = |value: u32| {
            let have = count(&self.current[s..], value);
            have > 0 && have < count(&self.target[s..], value)
        };
        let Some(p) = (s..self.shared()).find(|&p| short(self.target[p])) else {
            return Ok(false);
        };
        let value = self.target[p];
        let depth = self.current.iter().rev().position(|&other| other == value);
        self.dup_at(depth.unwrap_or_default())?;
        Ok(true)
    }

    pub fn w(&mut self) -> Step<bool> {
        let seen = self.height() - (self.dup + 1).min(self.height());
        let absent = |value: u32| !among(&self.current[seen..], value);
        let Some(p) = (self.complete..self.target.len()).find(|&p| absent(self.target[p])) else {
            return Ok(false);
        };
        self.load(self.target[p])?;
        Ok(true)
    }
}
