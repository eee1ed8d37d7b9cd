//! Units as lines of text, as the program `rtr_list` prints them, and changes as `rtr_diff` does.

use crate::abi::LINE_ROOM;
use crate::faults::Fault;
use crate::sys;
use crate::units::UnitRef;
use alloc::string::String;
use alloc::vec;
use alloc::vec::Vec;
use core::str;

/// Returns the line that `rtr_list` prints for the unit at the start of the input, with this offset
/// and without a newline, and the size of the unit. Like `rtr_list` it accepts a prefix whose
/// lengths break their rule, which [`Unit::first`](crate::Unit::first) refuses.
///
/// ```
/// // A prefix that is announced (RFC 8210 section 5.6).
/// let bytes = [1, 4, 0, 0, 0, 0, 0, 20, 1, 24, 26, 0, 198, 51, 100, 0, 0, 1, 0, 15];
/// let (line, size) = rtr_wire::unit_line(&bytes, 0)?;
/// assert_eq!(line, "0 v1 IPv4 prefix announce 198.51.100.0/24-26 AS65551");
/// assert_eq!(size, 20);
/// # Ok::<(), rtr_wire::Fault>(())
/// ```
///
/// # Errors
///
/// The errors of [`unit_size`](crate::unit_size), and `Short` for an incomplete unit.
pub fn unit_line(input: &[u8], offset: u64) -> Result<(String, usize), Fault> {
    line_by(|output| sys::line(input, offset, output))
}

/// Returns the unit as a JSON object, as `rtr_list --json` prints it, and its size.
///
/// ```
/// // The ASPA of AS65552 is withdrawn.
/// let bytes = [2, 11, 0, 0, 0, 0, 0, 12, 0, 1, 0, 16];
/// let (object, _) = rtr_wire::unit_json(&bytes, 0)?;
/// assert!(object.starts_with(r#"{"offset":0,"length":12,"kind":"aspa","version":2,"flags":0,"#));
/// # Ok::<(), rtr_wire::Fault>(())
/// ```
///
/// # Errors
///
/// As of [`unit_line`].
pub fn unit_json(input: &[u8], offset: u64) -> Result<(String, usize), Fault> {
    line_by(|output| sys::json(input, offset, output))
}

/// Returns a change as a line of text, as `rtr_diff` prints it, without a newline; none for a unit
/// that isn't a payload unit, or can't be written. Key info is in base64 (RFC 4648 section 5),
/// unpadded.
///
/// ```
/// use rtr_wire::{change_line, Unit};
///
/// // A prefix that is announced (RFC 8210 section 5.6).
/// let bytes = [1, 4, 0, 0, 0, 0, 0, 20, 1, 24, 26, 0, 198, 51, 100, 0, 0, 1, 0, 15];
/// let (unit, _) = Unit::first(&bytes)?;
/// let line = change_line(&unit);
/// assert_eq!(line.as_deref(), Some("+ IPv4 prefix 198.51.100.0/24-26 AS65551"));
/// # Ok::<(), rtr_wire::Fault>(())
/// ```
#[must_use]
pub fn change_line(unit: &UnitRef) -> Option<String> {
    change_by(sys::change_line, unit)
}

/// Returns the line that a call writes to the output, and the size of the unit. The call returns
/// the length of the line and that size.
fn line_by(
    mut call: impl FnMut(&mut [u8]) -> Result<(usize, usize), Fault>,
) -> Result<(String, usize), Fault> {
    // Most lines fit this array.
    let mut short = [0; LINE_ROOM];
    let (length, size) = call(&mut short)?;
    if let Some(line) = short.get(..length) {
        return Ok((text_of(line), size));
    }
    let mut long = vec![0; length];
    call(&mut long)?;
    Ok((text_of(&long), size))
}

/// Returns the text of a line, which is ASCII, or of an object, which is UTF-8.
fn text_of(line: &[u8]) -> String {
    match str::from_utf8(line) {
        Ok(text) => text.into(),
        Err(_) => String::from_utf8_lossy(line).into_owned(),
    }
}

/// Returns a change as a JSON object, as `rtr_diff --json` prints it; none for a unit that isn't a
/// payload unit, or can't be written.
///
/// ```
/// use rtr_wire::{change_json, Unit};
///
/// // The ASPA of AS65552 is withdrawn.
/// let bytes = [2, 11, 0, 0, 0, 0, 0, 12, 0, 1, 0, 16];
/// let (unit, _) = Unit::first(&bytes)?;
/// let object = r#"{"kind":"aspa","action":"withdraw","customer_asn":65552,"provider_asns":[]}"#;
/// assert_eq!(change_json(&unit).as_deref(), Some(object));
/// # Ok::<(), rtr_wire::Fault>(())
/// ```
#[must_use]
pub fn change_json(unit: &UnitRef) -> Option<String> {
    change_by(sys::change_json, unit)
}

/// Returns the text that a call writes for the change of a unit.
fn change_by(
    call: impl Fn(&[u8], &mut [u8]) -> Result<(usize, usize), Fault>,
    unit: &UnitRef,
) -> Option<String> {
    unit.announces()?;
    // Most units fit this array.
    let (mut short, mut long) = ([0; LINE_ROOM], Vec::new());
    let form = if let Ok(length) = unit.write(&mut short) {
        &short[..length]
    } else {
        unit.append(&mut long).ok()?;
        long.as_slice()
    };
    let (text, _) = line_by(|output| call(form, output)).ok()?;
    Some(text)
}
