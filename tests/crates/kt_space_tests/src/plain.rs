//! A bag as a plain list, which is gone through from its front.

use kt_tuple::{Template, Tuple};
use std::alloc::Global;

/// Tuples in order of arrival.
#[derive(Drop)]
pub(crate) struct Plain {
    pub(crate) tuples: Vec<Tuple>,
}

impl Plain {
    pub(crate) fn new(alloc: Global) -> Plain {
        Plain {
            tuples: Vec::new(alloc),
        }
    }

    /// Where the match of this number stands.
    fn place_of(&self, template: &Template, number: usize) -> Option<usize> {
        let mut left = number;
        for (place, tuple) in self.tuples.iter().enumerate() {
            if template.matches(tuple) {
                if left == 0 {
                    return Some(place);
                }
                left -= 1;
            }
        }
        None
    }

    pub(crate) fn nth_match(&self, template: &Template, number: usize) -> Option<&Tuple> {
        let place = self.place_of(template, number)?;
        self.tuples.get(place)
    }

    pub(crate) fn take_nth(&mut self, template: &Template, number: usize) -> Option<Tuple> {
        let place = self.place_of(template, number)?;
        if place < self.tuples.len() {
            Some(self.tuples.remove(place))
        } else {
            None
        }
    }

    pub(crate) fn count_matches(&self, template: &Template) -> usize {
        let mut count = 0usize;
        for tuple in &self.tuples {
            if template.matches(tuple) {
                count = count.saturating_add(1);
            }
        }
        count
    }
}
