//! Units don't allocate memory, nor do the calls over slices of data and changes, nor lookups in
//! them.
#![cfg(feature = "std")]
#![deny(unsafe_op_in_unsafe_fn)]

mod common;

use rtr_wire::{
    apply_into, delta_into, order_into, Reader, Route, Tables, Units, Validity, Writer,
};
use std::alloc::{GlobalAlloc, Layout, System};
use std::cell::Cell;

/// The system's allocator. Each thread counts its own calls, since the thread that waits for this
/// test allocates too.
struct Counted;

thread_local! {
    static COUNT: Cell<usize> = const { Cell::new(0) };
}

// SAFETY: the system's allocator does all the work.
unsafe impl GlobalAlloc for Counted {
    unsafe fn alloc(&self, layout: Layout) -> *mut u8 {
        COUNT.with(|count| count.set(count.get() + 1));
        // SAFETY: as the caller promises.
        unsafe { System.alloc(layout) }
    }

    unsafe fn dealloc(&self, pointer: *mut u8, layout: Layout) {
        // SAFETY: as the caller promises.
        unsafe { System.dealloc(pointer, layout) }
    }
}

#[global_allocator]
static ALLOCATOR: Counted = Counted;

#[test]
fn allocations() {
    let session = common::session().repeat(100);
    let mut output = [0; 64];
    let mut reader = Reader::new(&session[..]);
    let mut writer = Writer::new(std::io::sink());
    for (_, unit) in common::rows() {
        writer.write(&unit).expect("it has a form");
    }
    let (nothing, data) = (common::END, [common::IPV4, common::END].concat());
    let before = COUNT.with(Cell::get);
    while let Some(unit) = reader.next_unit().expect("it is read") {
        writer.write(&unit).expect("it has a form");
    }
    for unit in Units::new(&session) {
        let written = unit.expect("it is accepted").write(&mut output);
        written.expect("it fits");
    }
    for _ in 0..10 {
        let length = order_into(&data, &mut [0; 3], &mut output).expect("it has an order");
        assert_eq!(apply_into(nothing, &data, &mut output), Ok(length));
        assert_eq!(delta_into(nothing, &data, &mut output), Ok(length));
    }
    let tables = Tables::of(&data).expect("they are data");
    let route = Route::new([192, 0, 2, 0], 24, 65551).expect("its length is in range");
    assert_eq!(tables.validate(&route), Validity::Valid);
    assert_eq!(tables.covering(&route).count(), 1);
    assert_eq!(COUNT.with(Cell::get) - before, 0);
    assert_eq!(reader.offset(), session.len() as u64);
}
