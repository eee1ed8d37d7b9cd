//! The cases that `tests/libraries/deltas.py` writes: read from the file that `RTR_DELTAS` names,
//! or computed by python3. Without python3 nothing is tested here.
#![cfg(feature = "std")]

mod computed;

use rtr_wire::{apply_in_order, apply_into, changes_between, delta_into, order, order_into};
use rtr_wire::{DataError, Fault, Side};

/// One case: a call, and its expected result.
struct Case<'a> {
    call: u8,
    status: u8,
    side: u8,
    detail: u8,
    offset: usize,
    first: &'a [u8],
    second: &'a [u8],
    output: &'a [u8],
    places: usize,
}

impl<'a> Case<'a> {
    /// Parses the case at the start of these bytes; returns it and the rest.
    fn first(bytes: &'a [u8]) -> (Self, &'a [u8]) {
        let (head, rest) = bytes.split_at(4);
        let (numbers, rest) = rest.split_at(40);
        let mut numbers = numbers
            .chunks(8)
            .map(|number| u64::from_le_bytes(number.try_into().unwrap()) as usize);
        let mut next = || numbers.next().unwrap();
        let offset = next();
        let (first_length, second_length, output_length) = (next(), next(), next());
        let places = next();
        let (first, rest) = rest.split_at(first_length);
        let (second, rest) = rest.split_at(second_length);
        let (output, rest) = rest.split_at(output_length);
        let case = Case {
            call: head[0],
            status: head[1],
            side: head[2],
            detail: head[3],
            offset,
            first,
            second,
            output,
            places,
        };
        (case, rest)
    }

    fn called(&self, output: &mut [u8]) -> Result<usize, DataError> {
        let mut index = vec![7; self.places];
        match self.call {
            0 => delta_into(self.first, self.second, output),
            1 => apply_into(self.first, self.second, output),
            2 => order_into(self.first, &mut index, output),
            4 => changes_between(self.first, self.second, output),
            _ => apply_in_order(self.first, self.second, &mut index, output),
        }
    }

    fn check_fault(&self, error: DataError) {
        assert_eq!(error.fault.status(), self.status);
        assert_eq!(computed::detail(error.fault), self.detail);
        let place = error.place.map_or((0, 0), |place| match place.side {
            Side::First => (1, place.offset),
            Side::Second => (2, place.offset),
        });
        assert_eq!(place, (self.side, self.offset));
    }
}

#[test]
fn deltas() {
    let bytes = computed::cases("RTR_DELTAS", "libraries/deltas.py", &[]).unwrap_or_default();
    let mut rest = &bytes[..];
    while !rest.is_empty() {
        let (case, after) = Case::first(rest);
        rest = after;
        let mut output = vec![0xa5; case.first.len() + case.second.len()];
        match case.called(&mut output) {
            Ok(length) => {
                assert_eq!((0, &output[..length]), (case.status, case.output));
                let short = case.called(&mut output[..length - 1]);
                assert_eq!(short.unwrap_err().fault, Fault::NoRoom);
            }
            Err(error) => case.check_fault(error),
        }
        // This call allocates its own index, which always suffices.
        if case.call == 2 && case.status != Fault::NoIndex.status() {
            match order(case.first) {
                Ok(changes) => assert_eq!((0, changes.as_bytes()), (case.status, case.output)),
                Err(error) => case.check_fault(error),
            }
        }
    }
}
