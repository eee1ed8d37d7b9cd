//! Recordings and lists, and the data that they result in: those of the file `tests/loads`, and
//! larger ones.
#![cfg(feature = "alloc")]

mod common;

use common::{loads, Load};
use rtr_wire::{load_data, Side};

/// The result of loading: the bytes of the data, and whether an answer was ignored; or the offset
/// of the unit at fault, and the text of the fault.
type Outcome = Result<(Vec<u8>, bool), (usize, String)>;

/// The expected result of a recording.
fn expected(row: &Load) -> Outcome {
    match &row.refused {
        Some(refused) => Err(refused.clone()),
        None => Ok((row.data.clone(), row.has_cut)),
    }
}

/// Reports whether only the whole recording results in data.
fn is_one_answer(row: &Load) -> bool {
    let ends = row.units.iter().filter(|unit| unit[1] == 7).count();
    row.refused.is_none() && ends == 1
}

/// The offsets of the units, and of the end.
fn offsets(row: &Load) -> Vec<usize> {
    (0..=row.units.len())
        .map(|before| row.units[..before].concat().len())
        .collect()
}

fn outcome(recording: &[u8]) -> Outcome {
    match load_data(recording) {
        Ok(loaded) => Ok((loaded.data.into_bytes(), loaded.has_cut)),
        Err(error) => {
            let place = error.place.expect("a unit is at fault");
            let text = error.fault.to_string();
            assert_eq!(place.side, Side::First);
            assert_eq!(
                error.to_string(),
                format!("{text}, at byte {}", place.offset)
            );
            Err((place.offset, text))
        }
    }
}

#[test]
fn recordings() {
    for row in loads() {
        assert_eq!(outcome(&row.recording()), expected(&row), "{}", row.name);
    }
}

/// The bytes of data are a list that results in them.
#[test]
fn data_again() {
    for row in loads().iter().filter(|row| row.refused.is_none()) {
        let expected = Ok((row.data.clone(), false));
        assert_eq!(outcome(&row.data), expected, "{}", row.name);
    }
}

/// A recording truncated after any byte is refused at the offset of the incomplete unit.
#[test]
fn cut_off() {
    for row in loads().iter().filter(|row| is_one_answer(row)) {
        let (recording, offsets) = (row.recording(), offsets(row));
        for length in 0..recording.len() {
            let missing = offsets.iter().filter(|offset| **offset <= length).max();
            let expected = Err((*missing.unwrap(), "unexpected end of input".to_string()));
            assert_eq!(outcome(&recording[..length]), expected, "{}", row.name);
        }
    }
}

/// An IPv4 prefix of 32 bits (RFC 8210 section 5.6).
fn prefix(flags: u8, address: u32) -> Vec<u8> {
    let head = [1, 4, 0, 0, 0, 0, 0, 20, flags, 32, 32, 0];
    [&head[..], &address.to_be_bytes(), &[0, 0, 0xfb, 0xf0]].concat()
}

/// An end of data of session 7 (RFC 8210 section 5.8).
fn end(serial: u8) -> Vec<u8> {
    let head = [1, 7, 0, 7, 0, 0, 0, 24, 0, 0, 0, serial];
    let times = [0, 0, 0x0e, 0x10, 0, 0, 2, 0x58, 0, 0, 0x1c, 0x20];
    [head, times].concat()
}

/// More data than the first buffers hold.
#[test]
fn large_data() {
    let count = 1 << 20;
    let mut list: Vec<u8> = (0..count).flat_map(|at| prefix(1, at)).collect();
    list.extend(end(1));
    assert!(outcome(&list) == Ok((list, false)));
}
