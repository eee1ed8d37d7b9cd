//! Units of each type, by hand.
#![allow(dead_code)]

use rtr_wire::*;
use std::net::Ipv6Addr;

/// The bytes of a unit, and the unit.
pub type Row = (&'static [u8], Unit<&'static [u8]>);

/// The file of samples that all languages share, with the fields of each.
pub const SAMPLES: &str = include_str!("../../../../tests/samples");

/// A sample.
#[derive(Default)]
pub struct Sample {
    pub unit: &'static str,
    pub bytes: Vec<u8>,
    pub form: Option<Vec<u8>>,
    pub refused: Option<&'static str>,
    pub line: Option<&'static str>,
    pub change: Option<&'static str>,
    pub object: Option<&'static str>,
    pub json: Option<&'static str>,
}

/// All samples.
pub fn samples() -> Vec<Sample> {
    let mut all: Vec<Sample> = Vec::new();
    let rows = SAMPLES.lines().filter(|row| !row.starts_with('#'));
    for (word, rest) in rows.filter_map(|row| row.split_once(' ')) {
        if word == "unit" {
            all.push(Sample::default());
        }
        let last = all.last_mut().expect("a sample begins with its name");
        match word {
            "unit" => last.unit = rest,
            "bytes" => last.bytes = unspaced(rest),
            "form" => last.form = Some(unspaced(rest)),
            "refused" => last.refused = Some(rest),
            "line" => last.line = Some(rest),
            "change" => last.change = Some(rest),
            "object" => last.object = Some(rest),
            "json" => last.json = Some(rest),
            _ => panic!("a sample has no {word}"),
        }
    }
    all
}

/// A recording of the file `tests/loads`, which documents its contents.
#[derive(Default)]
pub struct Load {
    pub name: &'static str,
    pub units: Vec<Vec<u8>>,
    pub data: Vec<u8>,
    pub refused: Option<(usize, String)>,
    pub has_cut: bool,
}

impl Load {
    pub fn recording(&self) -> Vec<u8> {
        self.units.concat()
    }
}

/// All recordings.
pub fn loads() -> Vec<Load> {
    let mut all: Vec<Load> = Vec::new();
    let rows = include_str!("../../../../tests/loads").lines();
    let rows = rows.filter(|row| !row.starts_with('#'));
    for (word, rest) in rows.filter_map(|row| row.split_once(' ')) {
        if word == "load" {
            all.push(Load::default());
        }
        let last = all.last_mut().expect("a recording begins with its name");
        match word {
            "load" => last.name = rest,
            "unit" => last.units.push(unspaced(rest)),
            "data" => last.data.extend(unspaced(rest)),
            "refused" => {
                let (offset, text) = rest.split_once(' ').unwrap();
                last.refused = Some((offset.parse().unwrap(), text.to_string()));
            }
            "cut" => last.has_cut = true,
            _ => panic!("a recording has no {word}"),
        }
    }
    assert!(all.len() > 40);
    all
}

/// The bytes of hex digits.
fn unspaced(row: &str) -> Vec<u8> {
    let digits: Vec<u8> = row.bytes().filter(|byte| *byte != b' ').collect();
    digits
        .chunks(2)
        .map(|pair| 16 * digit(pair[0]) + digit(pair[1]))
        .collect()
}

const fn digit(character: u8) -> u8 {
    match character {
        b'0'..=b'9' => character - b'0',
        b'a'..=b'f' => character - b'a' + 10,
        _ => panic!("this is no hex digit"),
    }
}

/// Returns the offset of the digits of the sample of this name.
const fn digits_of(name: &str) -> usize {
    let (all, name) = (SAMPLES.as_bytes(), name.as_bytes());
    let mut at = 0;
    while at + 5 + name.len() < all.len() {
        let begins = all[at] == b'\n' && all[at + 1] == b'u' && all[at + 5] == b' ';
        let mut same = 0;
        while begins && same < name.len() && all[at + 6 + same] == name[same] {
            same += 1;
        }
        if begins && same == name.len() && all[at + 6 + same] == b'\n' {
            return at + 6 + same + "\nbytes ".len();
        }
        at += 1;
    }
    panic!("there is no sample of this name")
}

/// Returns how many bytes the sample of this name has.
const fn length_of(name: &str) -> usize {
    let (mut at, mut digits) = (digits_of(name), 0);
    while SAMPLES.as_bytes()[at] != b'\n' {
        digits += (SAMPLES.as_bytes()[at] != b' ') as usize;
        at += 1;
    }
    digits / 2
}

/// The bytes of the sample of this name.
const fn bytes_of<const LENGTH: usize>(name: &str) -> [u8; LENGTH] {
    let (mut at, mut bytes, mut digits) = (digits_of(name), [0; LENGTH], 0);
    while digits < 2 * LENGTH {
        let character = SAMPLES.as_bytes()[at];
        if character != b' ' {
            bytes[digits / 2] = 16 * (bytes[digits / 2] % 16) + digit(character);
            digits += 1;
        }
        at += 1;
    }
    bytes
}

/// The bytes of a sample.
macro_rules! sample {
    ($name:literal) => {
        &bytes_of::<{ length_of($name) }>($name)
    };
}

pub const SERIAL_NOTIFY: &[u8] = sample!("serial notify");
pub const SERIAL_QUERY: &[u8] = sample!("serial query");
pub const RESET_QUERY: &[u8] = sample!("reset query");
pub const CACHE_RESPONSE: &[u8] = sample!("cache response");
pub const IPV4: &[u8] = sample!("IPv4 prefix");
pub const IPV6: &[u8] = sample!("IPv6 prefix");
pub const END: &[u8] = sample!("end of data");
pub const END_0: &[u8] = sample!("end of data of version 0");
pub const CACHE_RESET: &[u8] = sample!("cache reset");
pub const KEY: &[u8] = sample!("router key");
pub const REPORT: &[u8] = sample!("error report");
pub const EMPTY_REPORT: &[u8] = sample!("empty report");
pub const TEXT_REPORT: &[u8] = sample!("report without a unit");
pub const ASPA: &[u8] = sample!("ASPA");
pub const WITHDRAWN: &[u8] = sample!("withdrawn ASPA");

const SESSION: u16 = 0x1234;
const SERIAL: u32 = 0xdead_beef;

/// Units of all types.
pub fn rows() -> Vec<Row> {
    let mut rows = plain_rows();
    rows.extend(payload_rows());
    rows.extend(report_rows());
    rows
}

/// The bytes of all rows, one after the other.
pub fn session() -> Vec<u8> {
    rows().iter().flat_map(|row| row.0).copied().collect()
}

fn plain_rows() -> Vec<Row> {
    let (session, serial) = (SESSION, SERIAL);
    let end = |version, timing| {
        Unit::EndOfData(EndOfData {
            version,
            session,
            serial,
            timing,
        })
    };
    let notify = SerialNotify {
        version: 1,
        session,
        serial,
    };
    let query = SerialQuery {
        version: 0,
        session,
        serial,
    };
    let response = CacheResponse {
        version: 1,
        session,
    };
    let timing = Timing {
        refresh: 3600,
        retry: 600,
        expire: 7200,
    };
    vec![
        (SERIAL_NOTIFY, Unit::SerialNotify(notify)),
        (SERIAL_QUERY, Unit::SerialQuery(query)),
        (RESET_QUERY, Unit::ResetQuery(ResetQuery { version: 2 })),
        (CACHE_RESPONSE, Unit::CacheResponse(response)),
        (END, end(1, Some(timing))),
        (END_0, end(0, None)),
        (CACHE_RESET, Unit::CacheReset(CacheReset { version: 1 })),
    ]
}

fn payload_rows() -> Vec<Row> {
    let (version, asn) = (1, 65551);
    let ipv4 = Ipv4Prefix {
        version,
        announce: true,
        address: [192, 0, 2, 0].into(),
        length: 23,
        max_length: 26,
        asn,
    };
    let ipv6 = Ipv6Prefix {
        version,
        announce: false,
        address: Ipv6Addr::new(0x2001, 0xdb8, 0, 0, 0, 0, 0, 0),
        length: 32,
        max_length: 48,
        asn,
    };
    let identifier = [
        1, 2, 3, 4, 5, 6, 7, 8, 9, 10, 11, 12, 13, 14, 15, 16, 17, 18, 19, 20,
    ];
    let key: RouterKey<&[u8]> = RouterKey {
        version,
        announce: true,
        identifier,
        asn,
        key_info: &[0xca, 0xfe],
    };
    let aspa = |announce, providers: &'static [u8]| {
        Unit::Aspa(Aspa {
            version: 2,
            announce,
            customer: 65000,
            providers: Providers(providers),
        })
    };
    vec![
        (IPV4, Unit::Ipv4Prefix(ipv4)),
        (IPV6, Unit::Ipv6Prefix(ipv6)),
        (KEY, Unit::RouterKey(key)),
        (ASPA, aspa(true, &[0, 0, 0xfd, 0xe9, 0, 1, 0, 15])),
        (WITHDRAWN, aspa(false, &[])),
    ]
}

fn report_rows() -> Vec<Row> {
    let report = |code, unit: &'static [u8], text: &'static [u8]| {
        Unit::ErrorReport(ErrorReport {
            version: 1,
            code,
            parts: Some(ReportParts { unit, text }),
        })
    };
    let (internal, none) = (ErrorCode::INTERNAL_ERROR, ErrorCode::NO_DATA_AVAILABLE);
    vec![
        (REPORT, report(none, &[1, 2, 0, 0, 0, 0, 0, 8], b"no")),
        (EMPTY_REPORT, report(internal, &[], &[])),
        (TEXT_REPORT, report(internal, &[], b"no")),
    ]
}

/// A version, a type, flags, a length, and the fault of that header.
pub type Hostile = (u8, u8, u8, u32, Fault);

/// Headers of every type with lengths that none of its units has, and their faults by
/// `docs/PROTOCOL.md`.
pub fn hostile_lengths() -> Vec<Hostile> {
    let mut rows = Vec::new();
    let fault = Fault::UnitLength;
    for (kind, size) in [(0, 12), (1, 12), (2, 8), (3, 8), (4, 20), (6, 32), (8, 8)] {
        let near = [0, 1, 7, size - 1, size + 1, size + 256];
        let far = [65535, 65536, 1 << 31, u32::MAX];
        let lengths = near.into_iter().chain(far);
        rows.extend(lengths.map(|length| (1, kind, 0, length, fault)));
    }
    for length in [0, 7, 8, 11, 13, 23, 24, 25, 65536, u32::MAX] {
        rows.push((0, 7, 0, length, fault));
        rows.push((3, 7, 0, length, Fault::UnitVersion(3)));
    }
    for length in [0, 7, 8, 11, 12, 13, 23, 25, 65536, u32::MAX] {
        rows.push((1, 7, 0, length, fault));
        rows.push((2, 7, 0, length, fault));
    }
    for (kind, least) in [(9, 32), (10, 16), (11, 12)] {
        rows.extend([0, 7, 8, least - 1].map(|length| (2, kind, 0, length, fault)));
        let long = [65536, 65537, 1 << 31, u32::MAX];
        rows.extend(long.map(|length| (2, kind, 1, length, Fault::TooLong)));
    }
    rows.extend([13, 17, 65535].map(|length| (2, 11, 1, length, fault)));
    rows.extend([5, 12, 255].map(|kind| (1, kind, 0, u32::MAX, Fault::UnitType(kind))));
    rows.extend([1, 0xff].map(|flags| (2, 11, flags, 12, Fault::EmptyProviders)));
    rows
}

/// The bytes of such a header, and a hundred more.
pub fn hostile_input((version, kind, flags, length, _): Hostile) -> Vec<u8> {
    let mut input = vec![version, kind, flags, 0];
    input.extend(length.to_be_bytes());
    input.resize(108, 0);
    input
}
