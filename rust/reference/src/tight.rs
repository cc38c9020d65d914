//! Tight neighbourhoods of a joining choice: what a junction reaches even without any one chosen row, as a set that grows.

use crate::choice::Choice;
use crate::sets::{members, Arcs};

/// A part of a neighbourhood, and the junctions that arcs from it lead to.
#[derive(Default)]
struct Grown {
    set: u64,
    once: u64,
}

impl Grown {
    /// Puts in more junctions, and with them what solid arcs, second arcs and known neighbourhoods add.
    fn grow(&mut self, choice: &Choice, known: &Arcs, more: u64) {
        self.set |= more;
        let mut todo = more;
        while todo != 0 {
            let x = todo.trailing_zeros() as usize;
            let next = choice.arcs[x];
            let sure = next & (choice.solid[x] | self.once) | known[x];
            todo = todo & (todo - 1) | sure & !self.set;
            self.set |= sure;
            self.once |= next;
        }
    }

    /// Junctions in which searches from two heads outside the set meet; 0 where all of these searches keep apart.
    fn meeting(&self, arcs: &Arcs) -> u64 {
        let mut other = 0;
        for head in members(self.once & !self.set) {
            let mut todo = 1 << head;
            let mut seen = self.set | todo;
            let mut met = todo & other;
            while todo != 0 && met == 0 {
                let found = arcs[todo.trailing_zeros() as usize];
                todo = todo & (todo - 1) | found & !seen;
                seen |= found;
                met = found & other;
            }
            if met != 0 {
                return met;
            }
            other |= seen & !self.set;
        }
        0
    }
}

/// The neighbourhood of `v`, where `known` has the neighbourhoods of some junctions and 0 for the others.
pub fn neighbourhood(choice: &Choice, known: &Arcs, v: usize) -> u64 {
    let mut grown = Grown::default();
    let mut more = 1 << v;
    while more != 0 {
        grown.grow(choice, known, more);
        more = grown.meeting(&choice.arcs);
    }
    grown.set
}

/// Neighbourhoods as they are asked for, kept until the choice changes.
#[derive(Clone)]
pub struct Neighbourhoods {
    known: Arcs,
}

impl Neighbourhoods {
    pub fn unknown() -> Neighbourhoods {
        Neighbourhoods { known: [0; 64] }
    }

    /// A neighbourhood holds its own junction, so 0 stands for one not yet asked for.
    pub fn of(&mut self, choice: &Choice, v: usize) -> u64 {
        if self.known[v] == 0 {
            self.known[v] = neighbourhood(choice, &self.known, v);
        }
        self.known[v]
    }
}
