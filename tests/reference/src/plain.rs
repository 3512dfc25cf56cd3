//! A pool's state in plain parts and as plain text, the same for every engine that is compared:
//! lists in order, and for each sheet its number, place, created count, keys, depths and facts.

use crate::limits::Limits;
use crate::pool::{View, BOUNDED, COMPLETE, WAITING};
use crate::sheet::{arguments, Sheet};
use std::fmt::Write;

#[derive(Clone, PartialEq, Eq, Debug, Default)]
pub struct PlainSheet {
    pub number: u64,
    pub place: usize,
    pub created: usize,
    /// Packed keys with values, in order.
    pub keys: Vec<u64>,
    /// Packed facts, in order.
    pub facts: Vec<u64>,
    /// Each living element with its depth, by element.
    pub depths: Vec<(u8, u32)>,
}

/// Waiting, complete and bounded sheets, in list order.
#[derive(Clone, PartialEq, Eq, Debug, Default)]
pub struct PlainPool {
    pub lists: [Vec<PlainSheet>; 3],
}

pub const STANDINGS: [&str; 3] = ["waiting", "complete", "bounded"];

impl PlainSheet {
    pub fn read(bytes: &[u8], limits: &Limits) -> Self {
        let mut sheet = Sheet::new();
        sheet.load(bytes, limits);
        let living = (0..sheet.created).filter(|&e| sheet.alive.has(e as u8));
        PlainSheet {
            number: sheet.number as u64,
            place: sheet.place as usize,
            created: sheet.created,
            keys: sheet.keys.rows().to_vec(),
            facts: sheet.facts.rows().to_vec(),
            depths: living.map(|e| (e as u8, sheet.depths[e] as u32)).collect(),
        }
    }

    /// The lines of a listing under the sheet's own.
    pub fn lines(&self, text: &mut String) {
        for &row in &self.keys {
            let _ = write!(text, "key {} {}", (row >> 56) as u8, (row >> 48) as u8);
            arguments(row).for_each(|e| write!(text, " {e}").unwrap());
            let _ = writeln!(text, " = {}", row as u8);
        }
        for (element, depth) in &self.depths {
            let _ = writeln!(text, "depth {element} {depth}");
        }
        for &row in &self.facts {
            let _ = write!(text, "fact {}", (row >> 48) as u8);
            arguments(row).for_each(|e| write!(text, " {e}").unwrap());
            text.push('\n');
        }
    }
}

impl PlainPool {
    pub fn read(bytes: &[u8], limits: &Limits) -> Self {
        let view = View { bytes, limits };
        let read = |list| {
            let slots = view.list(list).iter();
            slots.map(|&slot| PlainSheet::read(view.sheet(slot as usize), limits)).collect()
        };
        PlainPool { lists: [read(WAITING), read(COMPLETE), read(BOUNDED)] }
    }

    /// Every sheet of every list, with number, place and created count.
    pub fn text(&self) -> String {
        let mut text = String::new();
        for (standing, list) in STANDINGS.iter().zip(&self.lists) {
            for sheet in list {
                let (number, place, created) = (sheet.number, sheet.place, sheet.created);
                let _ = writeln!(text, "{standing} {number} place {place} created {created}");
                sheet.lines(&mut text);
            }
        }
        text
    }

    /// The listing's text after a run.
    pub fn listing(&self, stop: u32, steps: u32) -> String {
        let mut text = format!("stop {stop} steps {steps}\n");
        for list in [COMPLETE, BOUNDED] {
            for sheet in &self.lists[list] {
                let _ = writeln!(text, "{} {}", STANDINGS[list], sheet.number);
                sheet.lines(&mut text);
            }
        }
        let _ = writeln!(text, "waiting {}", self.lists[WAITING].len());
        text
    }
}
