//! The recordings of `tests/programs/listings.py --findings`, with the lines on the rules they
//! break: from the file that `RTR_FINDINGS` names, or computed by python3. Without python3 nothing
//! is tested here.
#![cfg(feature = "alloc")]

mod computed;

use rtr_wire::{Checker, Fault, Finding};

/// The rules that the units of a recording break, up to a refused unit.
fn check(recording: &[u8]) -> (Vec<Finding>, Option<Fault>) {
    let mut checker = Checker::new();
    let mut findings = Vec::new();
    let mut rest = recording;
    while !rest.is_empty() {
        match checker.unit(rest) {
            Ok((found, size)) => {
                findings.extend(found);
                rest = &rest[size..];
            }
            Err(fault) => return (findings, Some(fault)),
        }
    }
    findings.extend(checker.finish());
    (findings, None)
}

#[test]
fn rows_of_listings() {
    let rows = computed::cases("RTR_FINDINGS", "programs/listings.py", &["--findings"]);
    let rows = rows.unwrap_or_default();
    let mut rest = &rows[..];
    while !rest.is_empty() {
        let number = |at: usize| u32::from_le_bytes(rest[at..at + 4].try_into().unwrap()) as usize;
        let (size, length) = (number(0), number(4));
        let (recording, after) = rest[8..].split_at(size);
        let (lines, after) = after.split_at(length);
        rest = after;
        let (findings, fault) = check(recording);
        let said: Vec<String> = findings.iter().map(ToString::to_string).collect();
        let wanted: Vec<&str> = std::str::from_utf8(lines).unwrap().lines().collect();
        assert!(
            said == wanted && fault.is_none(),
            "{recording:02x?}: {said:?}"
        );
    }
}

#[test]
fn refused_units() {
    // A prefix with host bits, and then an ASPA that is announced without providers.
    let mut recording = vec![
        1, 4, 0, 0, 0, 0, 0, 20, 1, 24, 26, 0, 198, 51, 100, 1, 0, 1, 0, 15,
    ];
    recording.extend([2, 11, 1, 0, 0, 0, 0, 12, 0, 1, 0, 15]);
    let (findings, fault) = check(&recording);
    assert_eq!((findings.len(), fault), (1, Some(Fault::EmptyProviders)));
    assert_eq!(check(&recording[..19]), (Vec::new(), Some(Fault::Short)));
}
