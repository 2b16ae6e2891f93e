//! What the judge reads of the allocator's private state.

use super::DebrayAllocator;
use bit_set::BitSet;
use std::collections::VecDeque;

impl DebrayAllocator {
    pub(crate) fn argument_counter(&self) -> usize {
        self.arg_c
    }

    /// The counters by the names the original gives them.
    pub(crate) fn counters(&self) -> [(&'static str, usize); 4] {
        [
            ("arg_c", self.arg_c),
            ("temp_lb", self.temp_lb),
            ("perm_lb", self.perm_lb),
            ("arity", self.arity),
        ]
    }

    /// Pairs of a register and its variable, by register.
    pub(crate) fn mappings(&self) -> Vec<(usize, usize)> {
        let mappings = self.shallow_temp_mappings.iter();
        let mut pairs: Vec<_> = mappings.map(|(register, v)| (*register, *v)).collect();
        pairs.sort_unstable();
        pairs
    }

    pub(crate) fn in_use(&self) -> &BitSet<usize> {
        &self.in_use
    }

    /// The freed registers; the last is taken first.
    pub(crate) fn freed_registers(&self) -> &[usize] {
        &self.temp_free_list
    }

    /// The freed-slot queue: pairs of a chunk and a variable, front first.
    pub(crate) fn freed_slots(&self) -> &VecDeque<(usize, usize)> {
        &self.perm_free_list
    }
}
