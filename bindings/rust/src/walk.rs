//! The states of the library's automaton, which the low-level calls of `Automaton` walk.
use crate::library::{Pieces, State, States};
use crate::primitives::{PatternID, StateID};
use crate::search::Anchored;
use crate::shares::locked;
use std::{mem::size_of, sync::Mutex};

/// The states of a searcher, which threads share: each call locks them.
pub(crate) struct Walk {
    states: Mutex<States>,
    lens: Vec<usize>,
}

impl Walk {
    /// Returns the states of a searcher for these patterns.
    pub(crate) fn new(states: States, patterns: &Pieces<'_>) -> Walk {
        Walk { states: Mutex::new(states), lens: patterns.lens() }
    }

    pub(crate) fn start(&self, anchored: Anchored) -> StateID {
        locked(&self.states).start(anchored.is_anchored())
    }

    pub(crate) fn next(&self, anchored: Anchored, state: StateID, byte: u8) -> StateID {
        locked(&self.states).next(anchored.is_anchored(), state, byte)
    }

    /// Returns what is known about a state.
    pub(crate) fn told(&self, state: StateID) -> State {
        locked(&self.states).told(state)
    }

    /// Returns the pattern at an index of a state's list. Panics if the list is not that long.
    pub(crate) fn match_pattern(&self, state: StateID, index: usize) -> PatternID {
        let found = locked(&self.states).match_pattern(state, index);
        found.unwrap_or_else(|| panic!("{state:?} has no match {index}"))
    }

    /// Returns the length of a pattern in bytes. Panics if there is no such pattern.
    pub(crate) fn pattern_len(&self, pattern: PatternID) -> usize {
        self.lens[pattern]
    }

    pub(crate) fn memory_usage(&self) -> usize {
        self.lens.len() * size_of::<usize>() + locked(&self.states).memory_usage()
    }
}
