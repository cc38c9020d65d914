//! Halls, junctions counted from 0.

use reader::Refusal;

use crate::sets::{full, missed, reached, Arcs};

#[derive(Clone, Copy)]
pub struct Row {
    pub tail: usize,
    pub head: usize,
    pub price: u32,
    pub fixed: bool,
}

pub struct Hall {
    pub n: usize,
    pub rows: Vec<Row>,
    /// Over rows forward.
    pub forward: Arcs,
    /// Over rows both ways.
    pub links: Arcs,
    /// Over rows forward, and backward over those that are not fixed.
    open: Arcs,
}

impl Hall {
    pub fn all(&self) -> u64 {
        full(self.n)
    }

    fn put(&mut self, row: reader::Row) {
        let (tail, head) = (row.from as usize - 1, row.to as usize - 1);
        let row = Row { tail, head, price: row.price as u32, fixed: row.fixed };
        self.forward[row.tail] |= 1 << row.head;
        self.links[row.tail] |= 1 << row.head;
        self.links[row.head] |= 1 << row.tail;
        self.open[row.tail] |= 1 << row.head;
        self.open[row.head] |= u64::from(!row.fixed) << row.tail;
        self.rows.push(row);
    }
}

/// The hall, or the first of refusals 2 to 9 and 15.
pub fn read(file: &[u8]) -> Result<Hall, Refusal> {
    let mut hall = Hall { n: 0, rows: Vec::with_capacity(256), forward: [0; 64], links: [0; 64], open: [0; 64] };
    hall.n = reader::read(file, |row| hall.put(row))? as usize;
    if reached(&hall.links, 1) != hall.all() {
        return Err(Refusal::new(9));
    }
    if missed(&hall.open, hall.n).is_some() {
        return Err(Refusal::new(15));
    }
    Ok(hall)
}
