//! Units in memory, one by one.

mod common;

use common::{hostile_input, hostile_lengths, rows, session};
use common::{ASPA, CACHE_RESET, END, IPV4, IPV6, KEY, REPORT, RESET_QUERY, WITHDRAWN};
use rtr_wire::*;
use std::cmp::Ordering;

/// Each unit is decoded to these fields, and written back unchanged.
#[test]
fn there_and_back() {
    for (bytes, unit) in rows() {
        let mut input = bytes.to_vec();
        input.push(7);
        assert_eq!(Unit::first(&input), Ok((unit, &[7][..])));
        assert_eq!(unit_size(&bytes[..8]), Ok(Some(bytes.len())));
        assert_eq!(unit_size(&bytes[..7]), Ok(None));
        assert_eq!(unit.size(), bytes.len());
        assert_eq!(u8::from(unit.kind()), bytes[1]);
        assert_eq!(unit.version(), bytes[0]);
        let mut output = vec![0xa5; bytes.len() + 1];
        assert_eq!(unit.write(&mut output), Ok(bytes.len()));
        assert_eq!(output[..bytes.len()], *bytes);
        assert_eq!(output[bytes.len()], 0xa5);
        let mut output = vec![0xa5; bytes.len() - 1];
        assert_eq!(unit.write(&mut output), Err(Fault::NoRoom));
        assert!(output.iter().all(|byte| *byte == 0xa5));
    }
}

/// All units of a slice, truncated at each byte.
#[test]
fn cut() {
    let session = session();
    for cut in 0..=session.len() {
        let mut units = Units::new(&session[..cut]);
        let mut at = 0;
        for (bytes, unit) in rows() {
            if at + bytes.len() > cut {
                break;
            }
            assert_eq!(units.next(), Some(Ok(unit)));
            at += bytes.len();
        }
        assert_eq!((units.offset(), units.rest()), (at, &session[at..cut]));
        let end = (at < cut).then_some(Err(Fault::Short));
        assert_eq!(units.next(), end);
        assert_eq!(units.next(), None);
        assert_eq!(units.offset(), at);
    }
}

/// Free bits are written as zero: host bits, unused sessions, all flags but the lowest; the
/// providers of a withdrawal are omitted.
#[test]
fn forms() {
    let prefix = [
        1, 4, 3, 4, 0, 0, 0, 20, 0xff, 23, 26, 7, 192, 0, 3, 0xff, 0, 1, 0, 15,
    ];
    let mut aspa = ASPA.to_vec();
    aspa[2..4].copy_from_slice(&[0xfe, 7]);
    let rows: [(&[u8], &[u8]); 4] = [
        (&[2, 2, 3, 4, 0, 0, 0, 8], RESET_QUERY),
        (&[1, 8, 3, 4, 0, 0, 0, 8], CACHE_RESET),
        (&prefix, IPV4),
        (&aspa, WITHDRAWN),
    ];
    for (bytes, form) in rows {
        let (unit, _) = Unit::first(bytes).expect("the unit is accepted");
        let mut output = [0; 32];
        assert_eq!(unit.write(&mut output), Ok(form.len()));
        assert_eq!(output[..form.len()], *form);
        assert_eq!(unit.size(), form.len());
    }
}

/// A report whose inner lengths are wrong has no parts, and is written without them.
#[test]
fn reports_that_dont_fit() {
    let far = u32::MAX;
    for (unit, text) in [(9, 2), (7, 2), (8, 3), (8, 1), (far, 2), (8, far), (11, 0)] {
        let mut bytes = REPORT.to_vec();
        bytes[8..12].copy_from_slice(&u32::to_be_bytes(unit));
        bytes[20..24].copy_from_slice(&u32::to_be_bytes(text));
        let report = Unit::ErrorReport(ErrorReport {
            version: 1,
            code: ErrorCode::NO_DATA_AVAILABLE,
            parts: None,
        });
        assert_eq!(Unit::first(&bytes), Ok((report, &[][..])));
        let mut output = [0; 16];
        assert_eq!(report.write(&mut output), Ok(16));
        assert_eq!(output, [1, 10, 0, 2, 0, 0, 0, 16, 0, 0, 0, 0, 0, 0, 0, 0]);
    }
}

/// Hostile lengths in every type.
#[test]
fn hostile() {
    for row in hostile_lengths() {
        let input = hostile_input(row);
        let fault = row.4;
        assert_eq!(Unit::first(&input), Err(fault), "{row:?}");
        assert_eq!(unit_size(&input[..8]), Err(fault), "{row:?}");
        assert_eq!(Units::new(&input).next(), Some(Err(fault)));
    }
}

/// Prefixes whose lengths break their rule.
#[test]
fn prefix_rules() {
    let ipv4 = |length, max_length| -> UnitRef {
        Unit::Ipv4Prefix(Ipv4Prefix {
            version: 1,
            announce: true,
            address: [192, 0, 2, 10].into(),
            length,
            max_length,
            asn: 65551,
        })
    };
    let ipv6 = |length, max_length| -> UnitRef {
        Unit::Ipv6Prefix(Ipv6Prefix {
            version: 1,
            announce: true,
            address: [0; 16].into(),
            length,
            max_length,
            asn: 65551,
        })
    };
    let rows = [
        (ipv4(33, 33), PrefixRule::LengthOver),
        (ipv4(8, 33), PrefixRule::MaxLengthOver),
        (ipv4(9, 8), PrefixRule::MaxLengthUnder),
        (ipv6(129, 129), PrefixRule::LengthOver),
        (ipv6(9, 129), PrefixRule::MaxLengthOver),
        (ipv6(9, 8), PrefixRule::MaxLengthUnder),
        (ipv6(64, 63), PrefixRule::MaxLengthUnder),
    ];
    let mut output = [0; 32];
    for (unit, rule) in rows {
        assert_eq!(unit.write(&mut output), Err(Fault::Prefix(rule)));
    }
    assert_eq!(output, [0; 32]);
    assert_eq!(ipv4(23, 26).write(&mut output), Ok(20));
    assert_eq!(output[..20], *IPV4);
    for (bytes, places) in [(IPV4, [33, 33]), (IPV4, [24, 33]), (IPV6, [129, 129])] {
        let mut read = bytes.to_vec();
        read[9..11].copy_from_slice(&places);
        let rule = if places[0] == 24 {
            PrefixRule::MaxLengthOver
        } else {
            PrefixRule::LengthOver
        };
        assert_eq!(Unit::first(&read), Err(Fault::Prefix(rule)));
    }
}

/// No sequence is written in a version above 2, and no end of data.
#[test]
fn versions_that_there_are_not() {
    let mut output = [0; 24];
    for version in 3..=255 {
        let refused = Stopped {
            progress: Progress::default(),
            fault: Fault::UnitVersion(version),
        };
        assert_eq!(normalise_for(END, &mut output, 1, version), Err(refused));
        let unit: UnitRef = Unit::EndOfData(EndOfData {
            version,
            session: 1,
            serial: 2,
            timing: None,
        });
        assert_eq!(unit.write(&mut output), Err(Fault::UnitVersion(version)));
        let mut read = END.to_vec();
        read[0] = version;
        assert_eq!(Unit::first(&read), Err(Fault::UnitVersion(version)));
    }
    assert_eq!(output, [0; 24]);
}

/// Keys, reports and providers that are too long or malformed, and the longest that aren't.
#[test]
fn long_parts() {
    let bytes = vec![0; 65524];
    let key = |length| {
        Unit::RouterKey(RouterKey {
            version: 1,
            announce: true,
            identifier: [0; 20],
            asn: 65551,
            key_info: &bytes[..length],
        })
    };
    let aspa = |length| {
        Unit::Aspa(Aspa {
            version: 2,
            announce: true,
            customer: 65551,
            providers: Providers(&bytes[..length]),
        })
    };
    let report = |unit, text| {
        Unit::ErrorReport(ErrorReport {
            version: 1,
            code: ErrorCode::CORRUPT_DATA,
            parts: Some(ReportParts {
                unit: &bytes[..unit],
                text: &bytes[..text],
            }),
        })
    };
    let mut output = [0xa5; 65535];
    assert_eq!(key(65504).write(&mut output), Err(Fault::TooLong));
    assert_eq!(aspa(65524).write(&mut output), Err(Fault::TooLong));
    assert_eq!(aspa(6).write(&mut output), Err(Fault::UnitLength));
    assert_eq!(aspa(0).write(&mut output), Err(Fault::EmptyProviders));
    assert_eq!(report(65520, 0).write(&mut output), Err(Fault::TooLong));
    assert_eq!(report(0, 65520).write(&mut output), Err(Fault::TooLong));
    assert_eq!(report(65519, 1).write(&mut output), Err(Fault::TooLong));
    assert_eq!(key(4).write(&mut output[..35]), Err(Fault::NoRoom));
    assert_eq!(aspa(8).write(&mut output[..19]), Err(Fault::NoRoom));
    assert_eq!(report(8, 4).write(&mut output[..27]), Err(Fault::NoRoom));
    assert_eq!(output, [0xa5; 65535]);
    let longest = [
        (key(65503), 65535),
        (aspa(65520), 65532),
        (report(65519, 0), 65535),
        (report(0, 65519), 65535),
        (report(2, 65517), 65535),
    ];
    for (unit, size) in longest {
        assert_eq!(unit.write(&mut output), Ok(size));
        assert_eq!(Unit::first(&output[..size]), Ok((unit, &[][..])));
    }
}

/// An end of data without timings gets those of RFC 8210 section 6 in versions that have timings.
#[test]
fn timings_that_are_not_said() {
    let end = |version| -> UnitRef {
        Unit::EndOfData(EndOfData {
            version,
            session: 0x1234,
            serial: 0xdead_beef,
            timing: None,
        })
    };
    let mut output = [0; 24];
    assert_eq!(end(0).write(&mut output), Ok(12));
    assert_eq!(end(1).write(&mut output), Ok(24));
    assert_eq!(output, END);
}

#[test]
fn providers() {
    let aspa = match Unit::first(ASPA) {
        Ok((Unit::Aspa(aspa), _)) => aspa,
        other => panic!("{other:?}"),
    };
    assert!(aspa.providers.iter().eq([65001, 65551]));
    assert_eq!(aspa.providers.iter().len(), 2);
    assert_eq!(aspa.providers.iter().nth(1), Some(65551));
    assert_eq!(aspa.providers.iter().nth(2), None);
}

/// Each kind, its number and its text; 5 is none.
#[test]
fn kinds() {
    let texts = [
        "serial notify",
        "serial query",
        "reset query",
        "cache response",
        "IPv4 prefix",
        "",
        "IPv6 prefix",
        "end of data",
        "cache reset",
        "router key",
        "error report",
        "ASPA",
    ];
    for number in 0..=255_u8 {
        let text = texts.get(usize::from(number)).copied().unwrap_or("");
        let kind = match Kind::try_from(number) {
            Ok(kind) => kind,
            Err(unknown) => {
                assert_eq!((text, unknown), ("", UnknownKind(number)));
                continue;
            }
        };
        assert_eq!(kind.to_string(), text);
        assert_eq!(u8::from(kind), number);
        let first = match number {
            9 => 1,
            11 => 2,
            _ => 0,
        };
        for version in 0..=255 {
            assert_eq!(kind.is_in(version), (first..=2).contains(&version));
        }
    }
    assert_eq!(ErrorCode(8).to_string(), "Unexpected Protocol Version");
    assert_eq!(ErrorCode(12).to_string(), "error code 12");
}

/// The error code by RFC 8210 section 12, and the report that each fault owes (section 5.11).
#[test]
fn reports() {
    let rows: [(&[u8], Fault, Option<u16>); 8] = [
        (&[1, 4], Fault::Short, Some(0)),
        (&[1, 5, 0, 0, 0, 0, 0, 12, 9], Fault::UnitType(5), Some(5)),
        (
            &[3, 7, 0, 0, 0, 0, 0, 24, 9],
            Fault::UnitVersion(3),
            Some(4),
        ),
        (
            &[2, 11, 1, 0, 0, 0, 0, 12, 9],
            Fault::EmptyProviders,
            Some(9),
        ),
        (&[2, 9, 0, 0, 0, 1, 0, 0, 9], Fault::TooLong, Some(0)),
        // No report is owed about a report.
        (&[1, 10, 0, 0, 0, 0, 0, 15, 9], Fault::UnitLength, None),
        (&[1, 10, 0, 0, 0, 1, 0, 0, 9], Fault::TooLong, None),
        (&[1, 10, 0, 0, 0, 0, 0, 16, 9], Fault::Short, None),
    ];
    for (input, fault, code) in rows {
        assert_eq!(Unit::first(input), Err(fault));
        assert_eq!(fault.code(input), code.map(ErrorCode));
        let mut output = [0; 64];
        let report = fault.report(input, "no").map(|report| {
            let size = Unit::ErrorReport(report).write(&mut output);
            &output[..size.expect("it fits")]
        });
        let unit = &input[..input.len().min(8)];
        let expected = code.map(|code| {
            let (code, length) = (code as u8, unit.len() as u8);
            let head = [input[0], 10, 0, code, 0, 0, 0, 18 + length, 0, 0, 0, length];
            [&head, unit, &[0, 0, 0, 2, b'n', b'o']].concat()
        });
        assert_eq!(report, expected.as_deref());
    }
    assert_eq!(Fault::TooMany.report(IPV4, "no"), None);
    assert_eq!(Fault::NoRoom.code(IPV4), None);
}

/// A refused prefix is enclosed completely, and nothing after it.
#[test]
fn report_of_a_prefix() {
    let mut unit = IPV4.to_vec();
    unit[9] = 27;
    let input = [&unit, KEY].concat();
    let fault = Fault::Prefix(PrefixRule::MaxLengthUnder);
    assert_eq!(Unit::first(&input), Err(fault));
    assert_eq!(unit_size(&input), Ok(Some(20)));
    let report = fault.report(&input, "text").expect("a report is owed");
    let parts = report.parts.expect("it has parts");
    assert_eq!((parts.unit, parts.text), (&unit[..], &b"text"[..]));
    assert_eq!((report.version, report.code), (1, ErrorCode::CORRUPT_DATA));
}

/// A report's enclosed unit, and then its text, is truncated to keep the report at 65535 bytes.
#[test]
fn reports_cut() {
    for (length, enclosed, text) in [
        (65534, 65519, 0),
        (65518, 65518, 1),
        (65516, 65516, 3),
        (9, 9, 4),
    ] {
        let mut input = vec![1, 9, 0, 0, 0, 0, 0xff, 0xff];
        input.resize(length, 0);
        let report = Fault::Short
            .report(&input, "text")
            .expect("a report is owed");
        let parts = report.parts.expect("it has parts");
        assert_eq!((parts.unit.len(), parts.text), (enclosed, &b"text"[..text]));
        let mut output = vec![0; 65535];
        let size = Unit::ErrorReport(report).write(&mut output);
        assert_eq!(size, Ok(16 + enclosed + text));
    }
}

/// Serial numbers are compared by RFC 1982 section 3.2.
#[test]
fn serials() {
    let rows = [
        (0, 0, Some(Ordering::Equal)),
        (u32::MAX, u32::MAX, Some(Ordering::Equal)),
        (0, 1, Some(Ordering::Less)),
        (1, 0, Some(Ordering::Greater)),
        (u32::MAX, 0, Some(Ordering::Less)),
        (0, u32::MAX, Some(Ordering::Greater)),
        (0, 0x7fff_ffff, Some(Ordering::Less)),
        (0, 0x8000_0001, Some(Ordering::Greater)),
        (0, 0x8000_0000, None),
        (5, 0x8000_0005, None),
    ];
    for (left, right, order) in rows {
        assert_eq!(compare_serials(left, right), order);
    }
}

#[test]
fn texts() {
    let text = Fault::UnitType(10).to_string();
    assert_eq!(text, "unit type 10 is not allowed here");
    let stopped = normalise(&[], &mut [], 1).unwrap_err();
    assert_eq!(stopped.to_string(), "unexpected end of input, at byte 0");
    let faults = [
        Fault::Short,
        Fault::UnitType(1),
        Fault::UnitVersion(3),
        Fault::TooLong,
        Fault::UnitLength,
        Fault::EmptyProviders,
        Fault::Prefix(PrefixRule::LengthOver),
        Fault::TooMany,
        Fault::NoRoom,
        Fault::NoForm,
    ];
    assert!(faults.iter().map(|fault| fault.status()).eq(1..=10));
}
