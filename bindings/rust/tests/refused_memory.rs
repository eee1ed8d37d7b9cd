//! A router whose large allocations fail: it reports that, keeps its data, and continues when there
//! is memory again. New data, and their loss, are reported without memory.
#![cfg(feature = "std")]
#![deny(unsafe_op_in_unsafe_fn)]

mod peers;

use peers::*;
use rtr_wire::*;
use std::alloc::{GlobalAlloc, Layout, System};
use std::cell::Cell;
use std::ptr;

/// The system's allocator, which fails large allocations of a thread after a number of them.
struct Refusing;

/// The least size of a large allocation.
const LARGE: usize = 4096;

thread_local! {
    /// The number of large allocations that the thread may still make.
    static LEFT: Cell<usize> = const { Cell::new(usize::MAX) };
}

// SAFETY: the system's allocator does all the work, or the allocation fails.
unsafe impl GlobalAlloc for Refusing {
    unsafe fn alloc(&self, layout: Layout) -> *mut u8 {
        if layout.size() >= LARGE {
            let left = LEFT.with(Cell::get);
            if left == 0 {
                return ptr::null_mut();
            }
            LEFT.with(|count| count.set(left - 1));
        }
        // SAFETY: as the caller promises.
        unsafe { System.alloc(layout) }
    }

    unsafe fn dealloc(&self, pointer: *mut u8, layout: Layout) {
        // SAFETY: as the caller promises.
        unsafe { System.dealloc(pointer, layout) }
    }
}

#[global_allocator]
static ALLOCATOR: Refusing = Refusing;

/// Limits the large allocations of the thread while a function runs.
fn with_most<T>(count: usize, done: impl FnOnce() -> T) -> T {
    LEFT.with(|left| left.set(count));
    let result = done();
    LEFT.with(|left| left.set(usize::MAX));
    result
}

fn data(serial: u32) -> Data {
    data_of(SESSION, serial, 10_000)
}

/// A router that has got these data, which its next step reports.
fn answered(data: &Data) -> Router {
    let options = ClientOptions {
        version: 2,
        ..ClientOptions::default()
    };
    let mut router = Router::new(&options, 0);
    assert!(matches!(router.next(0), Step::Connect));
    router.connected(0);
    router.received(&answer(data, 2));
    router
}

/// A router that has data, and has asked for the changes since them.
fn asked() -> Router {
    let mut router = answered(&data(1));
    assert!(matches!(router.next(0), Step::Data(_)));
    router.ask_now();
    assert!(matches!(router.next(5000), Step::Wait));
    router.sent(router.output().len());
    router
}

/// A cache reset, and all data; or their changes.
fn answers() -> [Vec<u8>; 2] {
    let reset = [2, 8, 0, 0, 0, 0, 0, 8];
    let changes = data(1).delta_to(&data(2)).unwrap();
    [
        [&reset, &answer(&data(2), 2)[..]].concat(),
        [&response(2, SESSION), changes.as_bytes()].concat(),
    ]
}

/// The steps of a router that gets these bytes, up to the one that waits.
fn steps(router: &mut Router, bytes: &[u8], in_room: bool) -> Vec<Step> {
    let (mut rest, mut steps) = (bytes, Vec::with_capacity(4));
    if !in_room {
        router.received(rest);
        rest = &[];
    }
    loop {
        match router.next(5000) {
            Step::Wait if rest.is_empty() => return steps,
            Step::Wait => {
                let room = router.room();
                let count = room.len().min(rest.len());
                room[..count].copy_from_slice(&rest[..count]);
                router.filled(count);
                rest = &rest[count..];
            }
            Step::Close => {
                steps.push(Step::Close);
                rest = &[];
            }
            step => steps.push(step),
        }
    }
}

/// The router reconnects, and gets the data.
fn recovers(mut router: Router) {
    let wakes = router.wakes();
    assert!(matches!(router.next(wakes), Step::Connect));
    router.connected(wakes);
    if router.output() == reset_query(2) {
        router.received(&answer(&data(2), 2));
    } else {
        router.received(&answers()[0]);
    }
    assert!(matches!(router.next(wakes), Step::Data(_)));
    assert_eq!(router.data(), Some(&data(2)));
}

/// If any allocation fails while an answer is received and applied, the connection ends, and the
/// data stay.
#[test]
fn answers_without_memory() {
    for answer in answers() {
        for in_room in [false, true] {
            let mut refused = 0;
            loop {
                let mut router = asked();
                let taken = with_most(refused, || steps(&mut router, &answer, in_room));
                match taken.as_slice() {
                    [Step::Data(_)] => break,
                    [Step::Close, Step::Failed(error @ ClientError::NoMemory)] => {
                        assert_eq!(error.to_string(), "no memory");
                    }
                    other => panic!("{other:?}"),
                }
                assert_eq!(router.data(), Some(&data(1)));
                recovers(router);
                refused += 1;
            }
            assert!((2..20).contains(&refused), "{refused}");
        }
    }
}

/// New data are reported without memory for the changes, which can be computed later.
#[test]
fn changes_without_memory() {
    for answer in answers() {
        let mut router = asked();
        let taken = steps(&mut router, &answer, true);
        with_most(0, || match router.event(&taken[0]) {
            Some(Event::Data { data, changes }) => {
                assert_eq!((data.end().serial, data.len()), (2, data.units().count()));
                assert!(changes.try_make().is_err());
                let copy = changes.clone();
                assert!(copy.try_make().is_err());
                assert!(format!("{changes:?}").contains("Changes"));
            }
            other => panic!("{other:?}"),
        });
        match &taken[0] {
            Step::Data(changes) => {
                assert!(changes.try_make().is_ok());
                assert_eq!(*changes, data(1).delta_to(&data(2)).unwrap());
            }
            other => panic!("{other:?}"),
        }
    }
}

/// The loss of data is reported and logged without memory for the changes, too.
#[test]
fn dropped_without_memory() {
    let mut router = asked();
    let expired = 7_200_000; // the expire time of the data
    let mut taken = Vec::with_capacity(4);
    with_most(0, || loop {
        match router.next(expired) {
            Step::Wait | Step::Connect => break,
            step => {
                if let Some(event @ Event::Dropped { .. }) = router.event(&step) {
                    event.log(&|_, message, fields| {
                        assert_eq!((message, fields.len()), ("data dropped", 0));
                    });
                }
                taken.push(step);
            }
        }
    });
    assert_eq!(router.data(), None);
    let none = Data::new(2, SESSION, 1, None).unwrap();
    let dropped = taken.iter().find_map(|step| match step {
        Step::Dropped(changes) => Some(changes),
        _ => None,
    });
    assert_eq!(
        *dropped.expect("it is told"),
        data(1).delta_to(&none).unwrap()
    );
}

/// A switch to another cache with another session: these changes can be computed later, too.
#[test]
fn others_without_memory() {
    let others = data_of(9, 7, 10_000);
    let (first, second) = (data(1), others.clone());
    let shown = |data: &Data| {
        let mut router = answered(data);
        (router.next(0), router.take_news())
    };
    let (first_shown, second_shown) = (shown(&first), shown(&second));
    let mut preferred = Preferred::new(2, None, 0).unwrap();
    preferred.tick(5000);
    preferred.tell(5000, 1, first_shown, Some(&first));
    assert!(matches!(preferred.take_step(), Some((1, Step::Data(_)))));
    let (member, step) = with_most(0, || {
        preferred.tell(5000, 0, second_shown, Some(&second));
        let taken = preferred.take_step().expect("it is told");
        match preferred.event(&taken.1) {
            Some(Event::Data { data, changes }) => {
                assert_eq!(data.end().session, 9);
                assert!(changes.try_make().is_err());
            }
            other => panic!("{other:?}"),
        }
        taken
    });
    assert_eq!(member, 0);
    match step {
        Step::Data(changes) => {
            let old = first.numbered(9, 7);
            assert_eq!(changes, old.delta_to(&others).unwrap());
        }
        other => panic!("{other:?}"),
    }
}
