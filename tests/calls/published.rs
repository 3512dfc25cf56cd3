//! The published Rust behind calls of the reference's form (reference.rs, which is taken in), so that
//! one program can time both (tests/calls/speed). It has no pool: its models stand here, and the
//! pool that it is lent is not touched.

#[path = "reference.rs"]
pub mod reference_calls;

use published::chase::r#impl::basic::BasicSequent;
use published::machine::{self, Steps};
use published::read;
use reference::plain::PlainPool;
use reference::VERSION_1;
use reference_calls::Ran;
use std::cell::RefCell;
use std::slice::from_raw_parts;

/// A machine and the sequents that it looks at, which go after it.
struct Held {
    machine: Option<Box<dyn Steps>>,
    sequents: *mut [BasicSequent],
}

impl Drop for Held {
    fn drop(&mut self) {
        self.machine = None;
        // SAFETY: the sequents were given away by a box, and nothing looks at them any more.
        drop(unsafe { Box::from_raw(self.sequents) });
    }
}

thread_local! {
    static HELD: RefCell<Option<Held>> = const { RefCell::new(None) };
}

fn with_machine<T>(work: impl FnOnce(&mut dyn Steps) -> T) -> T {
    HELD.with_borrow_mut(|held| {
        let machine = held.as_mut().and_then(|held| held.machine.as_mut());
        work(&mut **machine.expect("a machine was opened"))
    })
}

/// # Safety
/// The book is accepted, and its pointer valid for its length.
#[no_mangle]
pub unsafe extern "C" fn published_open(
    book: *const u8,
    book_len: usize,
    _: *mut u8,
    _: usize,
    scheduler: u32,
    strategy: u32,
) -> u32 {
    let sequents = read::sequents(from_raw_parts(book, book_len)).into_boxed_slice();
    let sequents = Box::into_raw(sequents);
    let machine = Some(machine::open(&*sequents, scheduler, strategy));
    HELD.set(Some(Held { machine, sequents }));
    0
}

#[no_mangle]
pub extern "C" fn published_run(
    _: *const u8,
    _: usize,
    _: *mut u8,
    _: usize,
    bound: u32,
    number: u32,
    budget: u32,
) -> Ran {
    let steps = with_machine(|machine| machine.run(bound, number, budget));
    Ran { stop: if steps < budget { 14 } else { 0 }, steps }
}

/// Are the models those of a pool: each list in its order, and of each sheet everything but the
/// place of one that has ended?
///
/// # Safety
/// The pointer is valid for its length.
#[no_mangle]
pub unsafe extern "C" fn published_holds(pool: *const u8, pool_len: usize) -> u32 {
    let mut wanted = PlainPool::read(from_raw_parts(pool, pool_len), &VERSION_1);
    wanted.lists[1..].iter_mut().flatten().for_each(|sheet| sheet.place = 0);
    with_machine(|machine| u32::from(machine.state() == wanted))
}
