//! What document 01 says of a pool after a step, told from the two pools alone: which slots,
//! numbers and lists the children get, and that nothing else moves. No engine is asked.

use reference::pool::{View, BOUNDED, COMPLETE, WAITING};

/// A sheet's model number, from its bytes.
fn number(view: &View, slot: u8) -> u32 {
    let sheet = view.sheet(slot as usize);
    u16::from_le_bytes([sheet[0], sheet[1]]) as u32
}

/// The slots of the sheets that a step made, in the order of their numbers.
fn children(before: &View, after: &View) -> Vec<u8> {
    let mut made: Vec<u8> =
        after.named().filter(|&slot| number(after, slot) >= before.next()).collect();
    made.sort_by_key(|&slot| number(after, slot));
    made
}

/// Did the step keep what is promised of slots, numbers and lists? Names the first thing wrong.
pub fn step_wrong(before: &View, after: &View) -> Option<&'static str> {
    let base = *before.list(WAITING).first()?;
    let made = children(before, after);
    let completed = after.list(COMPLETE).len() > before.list(COMPLETE).len();
    let numbered = made.iter().zip(before.next()..).all(|(&slot, n)| number(after, slot) == n);
    if !numbered || after.next() != before.next() + made.len() as u32 {
        return Some("children are not numbered in turn");
    }
    if completed && !made.is_empty() {
        return Some("a completed base has children");
    }
    let kept: Vec<u8> = before.named().filter(|&slot| completed || slot != base).collect();
    let moved = |&&slot: &&u8| before.sheet(slot as usize) != after.sheet(slot as usize);
    if kept.iter().any(|slot| moved(&slot)) {
        return Some("another sheet changes");
    }
    let mut taken = kept;
    for &slot in &made {
        let lowest = (0..).find(|slot| !taken.contains(slot));
        if lowest != Some(slot) {
            return Some("a child is not in the lowest free slot");
        }
        taken.push(slot);
    }
    lists_wrong(before, after, base, &made, completed)
}

/// Do the lists grow where they should?
fn lists_wrong(
    before: &View,
    after: &View,
    base: u8,
    made: &[u8],
    completed: bool,
) -> Option<&'static str> {
    let bounded: Vec<u8> =
        made.iter().copied().filter(|slot| after.list(BOUNDED).contains(slot)).collect();
    let mut open: Vec<u8> = made.iter().copied().filter(|slot| !bounded.contains(slot)).collect();
    let rest = &before.list(WAITING)[1..];
    let waiting = if before.scheduler() == 0 {
        [rest, &open].concat()
    } else {
        open.reverse();
        [&open, rest].concat()
    };
    let complete = if completed { vec![base] } else { vec![] };
    if after.list(WAITING) != waiting {
        return Some("the waiting list");
    }
    if after.list(COMPLETE) != [before.list(COMPLETE), &complete].concat() {
        return Some("the complete list");
    }
    if after.list(BOUNDED) != [before.list(BOUNDED), &bounded].concat() {
        return Some("the bounded list");
    }
    let settings = before.bytes[..8] == after.bytes[..8];
    (!settings).then_some("the settings")
}
