//! A choice of rows and the arcs it gives: rows forward and chosen rows backward.

use reader::Refusal;

use crate::hall::Hall;
use crate::sets::{holds, missed, reached_short_of, Arcs};

#[derive(Clone)]
pub struct Choice<'h> {
    pub hall: &'h Hall,
    chosen: [bool; 256],
    pub arcs: Arcs,
    /// The arcs that are there without any one chosen row.
    pub solid: Arcs,
    /// How many chosen rows run from the second junction to the first.
    backward: [[u16; 64]; 64],
}

impl<'h> Choice<'h> {
    pub fn none(hall: &'h Hall) -> Choice<'h> {
        Choice { hall, chosen: [false; 256], arcs: hall.forward, solid: hall.forward, backward: [[0; 64]; 64] }
    }

    /// Refusal 10 for numbers that do not ascend, stand for no row or for a fixed one.
    pub fn read(hall: &'h Hall, numbers: &[u32]) -> Result<Choice<'h>, Refusal> {
        let mut choice = Choice::none(hall);
        let mut least = 1;
        for &number in numbers {
            let number = number as usize;
            if number < least || number > hall.rows.len() || hall.rows[number - 1].fixed {
                return Err(Refusal::new(10));
            }
            least = number + 1;
            choice.open(number - 1);
        }
        Ok(choice)
    }

    /// All unfixed rows, then without each in turn, dearest first, that the rest can spare.
    pub fn thinned(hall: &'h Hall, cost: &[i64]) -> Choice<'h> {
        let mut choice = Choice::none(hall);
        let mut dearest_first: Vec<usize> = (0..hall.rows.len()).rev().filter(|&i| !hall.rows[i].fixed).collect();
        dearest_first.iter().for_each(|&i| choice.open(i));
        dearest_first.sort_by_key(|&i| std::cmp::Reverse(cost[i]));
        for i in dearest_first {
            choice.close(i);
            let row = hall.rows[i];
            if reached_short_of(&choice.arcs, row.head, 1 << row.tail).is_some() {
                choice.open(i);
            }
        }
        choice
    }

    pub fn has(&self, i: usize) -> bool {
        self.chosen[i]
    }

    pub fn rows(&self) -> impl Iterator<Item = usize> + '_ {
        (0..self.hall.rows.len()).filter(|&i| self.chosen[i])
    }

    pub fn open(&mut self, i: usize) {
        if !self.chosen[i] {
            self.chosen[i] = true;
            let row = self.hall.rows[i];
            self.backward[row.head][row.tail] += 1;
            self.arcs[row.head] |= 1 << row.tail;
            if self.backward[row.head][row.tail] > 1 {
                self.solid[row.head] |= 1 << row.tail;
            }
        }
    }

    pub fn close(&mut self, i: usize) {
        if self.chosen[i] {
            self.chosen[i] = false;
            let row = self.hall.rows[i];
            self.backward[row.head][row.tail] -= 1;
            if !holds(self.hall.forward[row.head], row.tail) {
                match self.backward[row.head][row.tail] {
                    0 => self.arcs[row.head] &= !(1 << row.tail),
                    1 => self.solid[row.head] &= !(1 << row.tail),
                    _ => {}
                }
            }
        }
    }

    /// A shore that no chosen row enters.
    pub fn missed(&self) -> Option<u64> {
        missed(&self.arcs, self.hall.n)
    }
}
