//! Units and changes as lines and as JSON.
#![cfg(feature = "std")]

mod common;

use rtr_wire::*;

/// Each sample is listed and written as in the file, or refused.
#[test]
fn samples() {
    let all = common::samples();
    assert!(all.len() > 50);
    for sample in all {
        check(&sample);
    }
}

fn check(sample: &common::Sample) {
    let (name, bytes) = (sample.unit, &sample.bytes[..]);
    if let Some(line) = sample.line {
        let line = line.replacen('0', "24", 1);
        assert_eq!(unit_line(bytes, 24), Ok((line, bytes.len())), "{name}");
        let object = sample.json.expect(name).to_owned();
        assert_eq!(unit_json(bytes, 0), Ok((object, bytes.len())), "{name}");
    }
    if let Some(text) = sample.refused {
        let said = Unit::first(bytes).map_err(|fault| fault.to_string());
        assert_eq!(said, Err(text.to_owned()), "{name}");
        assert_eq!(unit_line(bytes, 0).is_err(), sample.line.is_none());
        return;
    }
    let (unit, rest) = Unit::first(bytes).expect(name);
    let mut form = vec![0; unit.size()];
    assert_eq!((unit.write(&mut form), rest), (Ok(form.len()), &[][..]));
    assert_eq!(
        &form,
        sample.form.as_ref().unwrap_or(&sample.bytes),
        "{name}"
    );
    if sample.form.is_none() {
        assert_eq!(change_line(&unit).as_deref(), sample.change, "{name}");
        assert_eq!(change_json(&unit).as_deref(), sample.object, "{name}");
    }
}

/// A line that is longer than the first buffer, and units without a line.
#[test]
fn long() {
    let mut report = vec![1, 10, 0, 0, 0, 0, 4, 16, 0, 0, 0, 0, 0, 0, 4, 0];
    report.resize(16 + 1024, 0);
    let (line, size) = unit_line(&report, 0).unwrap();
    let text = "\\x00".repeat(1024);
    let front = "0 v1 error report code 0 (Corrupt Data)";
    assert_eq!(line, format!("{front} pdu \"\" text \"{text}\""));
    assert_eq!(size, report.len());
    for length in 0..report.len() {
        assert!(matches!(unit_line(&report[..length], 0), Err(Fault::Short)));
    }
    let unknown = [1, 5, 0, 0, 0, 0, 0, 8];
    assert!(matches!(unit_line(&unknown, 0), Err(Fault::UnitType(5))));
}

/// A change whose unit and texts are longer than the first buffers.
#[test]
fn long_change() {
    let mut key = vec![1, 9, 1, 0, 0, 0, 4, 32];
    key.resize(32 + 1024, 0);
    let (unit, _) = Unit::first(&key).unwrap();
    // Base64 has four digits for three bytes.
    let info = "A".repeat((4 * 1024 + 2) / 3);
    let identifier = "0".repeat(40);
    let line = format!("+ router key {identifier} AS0 {info}");
    assert_eq!(change_line(&unit), Some(line));
    let object = change_json(&unit).unwrap();
    assert!(object.contains(&identifier) && object.contains(&info));
    assert!(object.ends_with('}'));
}
