//! Document 01's corners as calls, and the longest chains of merges and of lowered depths that a sheet
//! has room for.

use crate::cases::{Cases, FREE};
use compare::chains::{along, book, into_one, waiting};
use compare::corners::{corners, sheet};
use reference::child::Bound;
use reference::plain::{PlainPool, PlainSheet};

pub fn write(cases: &mut Cases) {
    by_calls(cases);
    merges(cases);
}

/// Each corner as a step, and as a run of one step; from an opened pool where its sheet is empty.
fn by_calls(cases: &mut Cases) {
    for corner in corners() {
        let (book, what) = (corner.draft.bytes(), format!("corner {}", corner.name));
        let bound = Bound { kind: corner.bound.0, number: corner.bound.1 };
        let mut pool = waiting(&corner.start, corner.scheduler as u8);
        if corner.start == PlainSheet::default() {
            cases.open(&what, &book, &mut pool, [corner.scheduler, 0], 0);
        }
        let mut again = pool.clone();
        cases.step(&what, &book, &mut pool, bound, 0);
        cases.reads(&what, &pool, corner.after);
        cases.run(&what, &book, &mut again, bound, 1, (0, 1));
        cases.kept(&what, &again, &pool);
    }
}

fn merges(cases: &mut Cases) {
    for chain in into_one().into_iter().chain(along()) {
        let (left, right) = chain.sides;
        let (book, mut pool) = (book(left, right), waiting(&chain.start, 0));
        cases.step(chain.what, &book, &mut pool, FREE, 0);
        let after = PlainSheet { number: 1, ..sheet(64, &chain.keys, &chain.facts) };
        let lists = [vec![after], vec![], vec![]];
        cases.reads(chain.what, &pool, &PlainPool { lists }.text());
        cases.step(&format!("{}, then", chain.what), &book, &mut pool, FREE, 0);
        cases.names(chain.what, &pool, [&[], &[0], &[]], 2);
    }
}
