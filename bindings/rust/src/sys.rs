//! The calls of the archive with the types of this crate.

#[cfg(feature = "alloc")]
pub(crate) use crate::abi::{Check, Finding as FindingNumbers};
pub(crate) use crate::abi::{Covering as CoveringNumbers, Lookup, Unit};

use crate::abi::{self, covers, kind, side, status, validity};
use crate::abi::{Answer, DataAnswer, Route as RouteNumbers};
use crate::calls;
use crate::data::{DataError, Place, Side};
use crate::faults::{ErrorCode, Fault};
use crate::kind::Kind;
use crate::net::{IpAddr, Ipv4Addr, Ipv6Addr};
use crate::sequence::{NotCompared, Progress, Stopped};
#[cfg(feature = "std")]
use crate::units::EndOfData;
use crate::units::{self, ErrorReport, Providers, ReportParts, Timing, UnitRef};
use crate::validation::{Route, Validity};
#[cfg(feature = "alloc")]
use alloc::{vec, vec::Vec};
use core::ops::Deref;
use core::str;
use core::time::Duration;

/// The number of routes that are validated in one call.
#[cfg(feature = "alloc")]
const ROUTES_AT_ONCE: usize = 4096;

/// Returns the default settings of a router's machine, with this version, or 2 if it is higher.
#[cfg(feature = "alloc")]
pub(crate) fn usual_settings(highest: u8) -> abi::Settings {
    let mut settings = abi::Settings::default();
    calls::settings_usual(&mut settings, highest);
    settings
}

/// Returns the default limits of a server.
#[cfg(feature = "alloc")]
pub(crate) fn usual_server_settings() -> abi::ServerSettings {
    let mut settings = abi::ServerSettings::default();
    calls::server_settings_usual(&mut settings);
    settings
}

/// Converts an answer to a result.
fn result(answer: Answer) -> Result<Progress, Stopped> {
    let progress = Progress {
        units: answer.units,
        forms: answer.forms,
        taken: answer.taken,
        written: answer.written,
    };
    match answer.status {
        status::OK => Ok(progress),
        status => Err(Stopped {
            progress,
            fault: Fault::of(status, answer.detail),
        }),
    }
}

pub(crate) fn normalise(input: &[u8], output: &mut [u8], limit: u64) -> Result<Progress, Stopped> {
    result(calls::normalise_slice(input, output, limit))
}

pub(crate) fn normalise_for(
    input: &[u8],
    output: &mut [u8],
    limit: u64,
    version: u8,
) -> Result<Progress, Stopped> {
    result(calls::normalise_for_slice(input, output, limit, version))
}

pub(crate) fn next(input: &[u8]) -> Result<Unit, Fault> {
    match calls::next(input) {
        (unit, status::OK) => Ok(unit),
        (unit, status) => Err(Fault::of(status, unit.detail)),
    }
}

pub(crate) fn unit_size(input: &[u8]) -> Result<usize, Fault> {
    match calls::unit_size(input) {
        (size, _, status::OK) => Ok(size),
        (_, detail, status) => Err(Fault::of(status, detail)),
    }
}

/// A text of the archive, of less than `ROOM` bytes.
pub(crate) struct Text<const ROOM: usize> {
    bytes: [u8; ROOM],
    length: usize,
}

impl<const ROOM: usize> Text<ROOM> {
    /// Returns the text that a call writes to the front of these bytes; the call returns its
    /// length.
    fn by(call: impl FnOnce(&mut [u8]) -> (usize, u8)) -> Self {
        let mut text = Text {
            bytes: [0; ROOM],
            length: 0,
        };
        text.length = call(&mut text.bytes).0;
        text
    }
}

impl<const ROOM: usize> Deref for Text<ROOM> {
    type Target = str;

    fn deref(&self) -> &str {
        // Texts are ASCII, and shorter than the buffer.
        let text = self.bytes.get(..self.length).unwrap_or(&self.bytes);
        str::from_utf8(text).unwrap_or_default()
    }
}

/// Returns the text of a status with its detail.
pub(crate) fn status_text(status: u8, detail: u8) -> Text<{ abi::TEXT_ROOM }> {
    Text::by(|output| calls::text(status, detail, output))
}

/// Returns the text of a status with its detail, and an offset.
pub(crate) fn text_at(status: u8, detail: u8, offset: u64) -> Text<{ abi::TEXT_AT_ROOM }> {
    Text::by(|output| calls::text_at(status, detail, offset, output))
}

/// Returns what an error report of this code and text says.
#[cfg(feature = "alloc")]
pub(crate) fn report_text(code: u16, text: &[u8]) -> Text<{ abi::REPORT_TEXT_ROOM }> {
    Text::by(|output| calls::report_text(code, text, output))
}

/// Converts a duration to milliseconds; only zero becomes zero.
pub(crate) fn milliseconds(span: Duration) -> u32 {
    let whole = u32::try_from(span.as_millis()).unwrap_or(u32::MAX);
    whole.max(u32::from(!span.is_zero()))
}

/// Returns the name of a number; `named` selects the table of names.
pub(crate) fn name(named: u8, number: u16) -> Text<{ abi::TEXT_ROOM }> {
    Text::by(|output| calls::name(named, number, output))
}

/// Returns the first rule of RFC 8210 section 6 that the times of an end of data break, or 0.
#[cfg(feature = "std")]
pub(crate) fn end_rule(end: &EndOfData) -> u8 {
    let times = end.timing.map(|t| (t.refresh, t.retry, t.expire));
    let (refresh, retry, expire) = times.unwrap_or_default();
    calls::end_rule(end.version, refresh, retry, expire)
}

/// Writes the line of the first unit of the input, as much as fits; returns the length of the whole
/// line, and the size of the unit.
#[cfg(feature = "alloc")]
pub(crate) fn line(input: &[u8], offset: u64, output: &mut [u8]) -> Result<(usize, usize), Fault> {
    lined(calls::line(input, offset, output))
}

/// Writes the JSON object of a unit, as `line` writes its line.
#[cfg(feature = "alloc")]
pub(crate) fn json(input: &[u8], offset: u64, output: &mut [u8]) -> Result<(usize, usize), Fault> {
    lined(calls::json(input, offset, output))
}

/// Writes the line of the change that the unit makes, as `line` does.
#[cfg(feature = "alloc")]
pub(crate) fn change_line(input: &[u8], output: &mut [u8]) -> Result<(usize, usize), Fault> {
    lined(calls::change_line(input, output))
}

/// Writes the JSON object of that change, as `change_line` writes its line.
#[cfg(feature = "alloc")]
pub(crate) fn change_json(input: &[u8], output: &mut [u8]) -> Result<(usize, usize), Fault> {
    lined(calls::change_json(input, output))
}

#[cfg(feature = "alloc")]
fn lined(answer: abi::Line) -> Result<(usize, usize), Fault> {
    match answer.status {
        status::OK | status::NO_ROOM => Ok((answer.length, answer.size)),
        status => Err(Fault::of(status, answer.detail)),
    }
}

/// Writes the name to the output, which is long enough for any name.
#[cfg(feature = "alloc")]
pub(crate) fn check_name(input: &[u8], output: &mut [u8]) -> Result<abi::Naming, Fault> {
    let answer = calls::check_name(input, output);
    match answer.status {
        status::OK => Ok(answer),
        status => Err(Fault::of(status, answer.detail)),
    }
}

/// Writes a unit; `part` is the key info, the providers, or the unit that a report is about. The
/// fault has no version and no broken rule.
pub(crate) fn write(unit: &Unit, part: &[u8], output: &mut [u8]) -> Result<usize, Fault> {
    let unit = Unit {
        part_length: part.len(),
        ..*unit
    };
    match calls::write_unit(&unit, part, output) {
        (written, status::OK) => Ok(written),
        (_, status) => Err(Fault::of(status, 0)),
    }
}

pub(crate) fn same_meaning(left: &[u8], right: &[u8], limit: u64) -> Result<bool, NotCompared> {
    let answer = calls::same_meaning(left, right, limit);
    match answer.status {
        status::OK => Ok(answer.same),
        status => Err(NotCompared {
            fault: Fault::of(status, answer.detail),
            place: Place {
                side: match answer.side {
                    side::LEFT => Side::First,
                    _ => Side::Second,
                },
                offset: answer.offset,
            },
        }),
    }
}

/// Returns the number of written bytes, or why the call failed.
fn data_result(answer: DataAnswer) -> Result<usize, DataError> {
    let place = |side| Place {
        side,
        offset: answer.offset,
    };
    match answer.status {
        status::OK => Ok(answer.written),
        status => Err(DataError {
            fault: Fault::of(status, answer.detail),
            place: match answer.side {
                side::LEFT => Some(place(Side::First)),
                side::RIGHT => Some(place(Side::Second)),
                _ => None,
            },
        }),
    }
}

pub(crate) fn delta(old: &[u8], new: &[u8], output: &mut [u8]) -> Result<usize, DataError> {
    data_result(calls::delta(old, new, output))
}

pub(crate) fn changes_between(
    old: &[u8],
    new: &[u8],
    output: &mut [u8],
) -> Result<usize, DataError> {
    data_result(calls::changes_between(old, new, output))
}

/// Writes the changes between data of any versions and sessions to the capacity of an empty vector.
/// An empty slice stands for no data.
#[cfg(feature = "alloc")]
pub(crate) fn append_changes(
    old: &[u8],
    new: &[u8],
    output: &mut Vec<u8>,
) -> Result<(), DataError> {
    let mut answer = DataAnswer::default();
    // SAFETY: as in `normalise`; the call writes to the output, and as many bytes as it says.
    unsafe {
        abi::rtr_changes_between_nonnull(
            old.as_ptr(),
            old.len(),
            new.as_ptr(),
            new.len(),
            output.as_mut_ptr(),
            output.capacity(),
            &mut answer,
        );
        output.set_len(answer.written);
    };
    data_result(answer).map(|_| ())
}

pub(crate) fn apply(data: &[u8], changes: &[u8], output: &mut [u8]) -> Result<usize, DataError> {
    data_result(calls::apply(data, changes, output))
}

pub(crate) fn apply_in_order(
    data: &[u8],
    changes: &[u8],
    index: &mut [usize],
    output: &mut [u8],
) -> Result<usize, DataError> {
    data_result(calls::apply_in_order(data, changes, index, output))
}

pub(crate) fn order(
    input: &[u8],
    index: &mut [usize],
    output: &mut [u8],
) -> Result<usize, DataError> {
    data_result(calls::order(input, index, output))
}

/// Builds the lookup of the data at the start of the slice.
pub(crate) fn check_data(data: &[u8]) -> Result<Lookup, DataError> {
    let (lookup, answer) = calls::check_data(data);
    data_result(answer)?;
    Ok(lookup)
}

/// Converts a route for the archive.
fn route_numbers(route: &Route) -> RouteNumbers {
    let mut numbers = RouteNumbers {
        asn: route.asn(),
        family: 6,
        prefix_length: route.length(),
        address: [0; 16],
    };
    match route.address() {
        IpAddr::V4(address) => {
            numbers.family = 4;
            numbers.address[..4].copy_from_slice(&address.octets());
        }
        IpAddr::V6(address) => numbers.address = address.octets(),
    }
    numbers
}

/// Returns the validity of a route, whose length is in range, by the data of the lookup.
pub(crate) fn validate(data: &[u8], lookup: &Lookup, route: &Route) -> Validity {
    validity_of(calls::validate(data, lookup, &route_numbers(route)))
}

/// Returns the validity with this number. The other numbers are those of no route and of no data.
fn validity_of(number: u8) -> Validity {
    match number {
        validity::VALID => Validity::Valid,
        validity::INVALID => Validity::Invalid,
        _ => Validity::NotFound,
    }
}

/// Returns the validity of each route, as `validate` returns it.
#[cfg(feature = "alloc")]
pub(crate) fn validate_all(data: &[u8], lookup: &Lookup, routes: &[Route]) -> Vec<Validity> {
    let mut validities = Vec::with_capacity(routes.len());
    let mut found = vec![0; routes.len().min(ROUTES_AT_ONCE)];
    for batch in routes.chunks(ROUTES_AT_ONCE) {
        let batch: Vec<RouteNumbers> = batch.iter().map(route_numbers).collect();
        let count = calls::validate_many(data, lookup, &batch, &mut found);
        validities.extend(found[..count].iter().map(|number| validity_of(*number)));
    }
    validities
}

/// Returns the first VRP from this index on that covers a route.
pub(crate) fn covering(
    data: &[u8],
    lookup: &Lookup,
    route: &Route,
    from: usize,
) -> Option<CoveringNumbers> {
    let (found, answer) = calls::covering(data, lookup, &route_numbers(route), from);
    (answer == covers::ONE).then_some(found)
}

/// Returns the code of the report that is owed for this status of the first unit of the input.
pub(crate) fn error_code(status: u8, input: &[u8]) -> Option<u16> {
    let (code, is_owed) = calls::error_code(status, input);
    is_owed.then_some(code)
}

impl Unit {
    /// Converts the struct to a typed unit with these bytes.
    pub(crate) fn typed<'a>(&self, bytes: &'a [u8]) -> UnitRef<'a> {
        let (version, session, serial) = (self.version, self.session, self.serial);
        match self.kind {
            kind::SERIAL_NOTIFY => units::Unit::SerialNotify(units::SerialNotify {
                version,
                session,
                serial,
            }),
            kind::SERIAL_QUERY => units::Unit::SerialQuery(units::SerialQuery {
                version,
                session,
                serial,
            }),
            kind::RESET_QUERY => units::Unit::ResetQuery(units::ResetQuery { version }),
            kind::CACHE_RESPONSE => {
                units::Unit::CacheResponse(units::CacheResponse { version, session })
            }
            kind::IPV4_PREFIX | kind::IPV6_PREFIX | kind::ROUTER_KEY | kind::ASPA => {
                self.payload(self.part(bytes))
            }
            kind::END_OF_DATA => units::Unit::EndOfData(units::EndOfData {
                version,
                session,
                serial,
                timing: self.timing(),
            }),
            kind::CACHE_RESET => units::Unit::CacheReset(units::CacheReset { version }),
            _ => units::Unit::ErrorReport(self.report(bytes)),
        }
    }

    /// Returns the bytes of the part of the unit: key info, providers, or the unit of a report.
    fn part<'a>(&self, bytes: &'a [u8]) -> &'a [u8] {
        &bytes[self.part_start..][..self.part_length]
    }

    /// Converts the struct of an error report. If its inner lengths are wrong it has no parts.
    fn report<'a>(&self, bytes: &'a [u8]) -> ErrorReport<&'a [u8]> {
        ErrorReport {
            version: self.version,
            code: ErrorCode(self.code),
            parts: (self.part_start > 0).then(|| ReportParts {
                unit: self.part(bytes),
                text: &bytes[self.text_start..][..self.text_length],
            }),
        }
    }

    /// Converts the struct of a prefix, a router key or an ASPA to a typed unit with this part.
    #[inline]
    fn payload<'a>(&self, part: &'a [u8]) -> UnitRef<'a> {
        let (version, announce) = (self.version, self.action == 1);
        match self.kind {
            kind::IPV4_PREFIX => units::Unit::Ipv4Prefix(units::Ipv4Prefix {
                version,
                announce,
                address: self.ipv4(),
                length: self.prefix_length,
                max_length: self.max_length,
                asn: self.asn,
            }),
            kind::IPV6_PREFIX => units::Unit::Ipv6Prefix(units::Ipv6Prefix {
                version,
                announce,
                address: Ipv6Addr::from(self.address),
                length: self.prefix_length,
                max_length: self.max_length,
                asn: self.asn,
            }),
            kind::ROUTER_KEY => units::Unit::RouterKey(units::RouterKey {
                version,
                announce,
                identifier: self.key_identifier,
                asn: self.asn,
                key_info: part,
            }),
            _ => units::Unit::Aspa(units::Aspa {
                version,
                announce,
                customer: self.customer,
                providers: Providers(part),
            }),
        }
    }

    fn ipv4(&self) -> Ipv4Addr {
        let [a, b, c, d, ..] = self.address;
        Ipv4Addr::new(a, b, c, d)
    }

    /// Returns the timings of an end of data; version 0 has none.
    fn timing(&self) -> Option<Timing> {
        (self.version > 0).then_some(Timing {
            refresh: self.refresh,
            retry: self.retry,
            expire: self.expire,
        })
    }

    /// Converts the unit for the archive, without the length of its part, and a report without its
    /// text.
    pub(crate) fn of<B>(typed: &units::Unit<B>) -> Self {
        let unit = Unit {
            kind: typed.kind().into(),
            version: typed.version(),
            ..Unit::default()
        };
        match typed {
            units::Unit::SerialNotify(notify) => unit.with_serial(notify.session, notify.serial),
            units::Unit::SerialQuery(query) => unit.with_serial(query.session, query.serial),
            units::Unit::CacheResponse(response) => unit.with_serial(response.session, 0),
            units::Unit::ResetQuery(_) | units::Unit::CacheReset(_) => unit,
            units::Unit::Ipv4Prefix(prefix) => unit.with_ipv4(prefix),
            units::Unit::Ipv6Prefix(prefix) => unit.with_ipv6(prefix),
            units::Unit::EndOfData(end) => {
                let timing = end.timing.unwrap_or(Timing::RECOMMENDED);
                Unit {
                    refresh: timing.refresh,
                    retry: timing.retry,
                    expire: timing.expire,
                    ..unit.with_serial(end.session, end.serial)
                }
            }
            units::Unit::RouterKey(key) => Unit {
                action: key.announce.into(),
                key_identifier: key.identifier,
                asn: key.asn,
                ..unit
            },
            units::Unit::ErrorReport(report) => Unit::of_report(report),
            units::Unit::Aspa(aspa) => Unit {
                action: aspa.announce.into(),
                customer: aspa.customer,
                ..unit
            },
        }
    }

    fn with_ipv4(self, prefix: &units::Ipv4Prefix) -> Self {
        let mut address = [0; 16];
        address[..4].copy_from_slice(&prefix.address.octets());
        Unit {
            family: 4,
            address,
            action: prefix.announce.into(),
            prefix_length: prefix.length,
            max_length: prefix.max_length,
            asn: prefix.asn,
            ..self
        }
    }

    fn with_ipv6(self, prefix: &units::Ipv6Prefix) -> Self {
        Unit {
            family: 6,
            address: prefix.address.octets(),
            action: prefix.announce.into(),
            prefix_length: prefix.length,
            max_length: prefix.max_length,
            asn: prefix.asn,
            ..self
        }
    }

    /// Converts the report for the archive, without its parts.
    pub(crate) fn of_report<B>(report: &ErrorReport<B>) -> Self {
        Unit {
            kind: Kind::ErrorReport.into(),
            version: report.version,
            code: report.code.0,
            ..Unit::default()
        }
    }

    fn with_serial(self, session: u16, serial: u32) -> Self {
        Unit {
            serial,
            session,
            ..self
        }
    }
}

#[cfg(test)]
mod tests {
    use super::{write, Fault, Unit};
    use std::string::ToString;

    /// Values that no unit of this crate can have.
    #[test]
    fn no_form() {
        let rows = [
            // The kind, the action and the family.
            ((5, 1, 4), Fault::UnitType(0)),
            ((12, 1, 4), Fault::UnitType(0)),
            ((4, 2, 4), Fault::NoForm),
            ((4, 1, 6), Fault::NoForm),
            ((6, 1, 4), Fault::NoForm),
            ((7, 1, 0), Fault::NoForm),
            ((9, 2, 0), Fault::NoForm),
            ((11, 2, 0), Fault::NoForm),
        ];
        for ((kind, action, family), fault) in rows {
            let unit = Unit {
                kind,
                action,
                family,
                version: 1,
                ..Unit::default()
            };
            let mut output = [0xa5; 40];
            assert_eq!(write(&unit, &[], &mut output), Err(fault));
            assert_eq!(output, [0xa5; 40]);
        }
    }

    /// Returns what the library says for a row without a name, and what it has to say.
    #[cfg(feature = "std")]
    fn shown<'a>(word: &str, number: u16, row: &'a str) -> (std::string::String, &'a str) {
        let (first, text) = row.split_once(' ').unwrap();
        if word == "report" {
            let digits = if first == "-" { "" } else { first };
            let byte = |at| u8::from_str_radix(&digits[at..at + 2], 16).unwrap();
            let reported: std::vec::Vec<u8> = (0..digits.len()).step_by(2).map(byte).collect();
            return (super::report_text(number, &reported).to_string(), text);
        }
        let (status, detail) = (number.try_into().unwrap(), first.parse().unwrap());
        if word == "text" {
            return (super::status_text(status, detail).to_string(), text);
        }
        let (offset, text) = text.split_once(' ').unwrap();
        let offset = offset.parse().unwrap();
        (super::text_at(status, detail, offset).to_string(), text)
    }

    /// The library's texts, the same in all languages.
    #[cfg(feature = "std")]
    #[test]
    fn texts() {
        use super::abi::named;
        let path = concat!(env!("CARGO_MANIFEST_DIR"), "/../../tests/texts");
        let file = std::fs::read_to_string(path).unwrap();
        let mut rows = 0;
        for row in file
            .lines()
            .filter(|row| !row.is_empty() && !row.starts_with('#'))
        {
            let (word, rest) = row.split_once(' ').unwrap();
            let (number, text) = rest.split_once(' ').unwrap();
            let number = number.parse::<u16>().unwrap();
            let named = match word {
                "status" => named::STATUS,
                "kind" => named::KIND,
                "cause" => named::CAUSE,
                "reason" => named::REASON,
                "code" => named::CODE,
                "time_rule" => named::TIME_RULE,
                _ => {
                    let (shown, text) = shown(word, number, text);
                    assert_eq!(shown, text, "{row}");
                    rows += 1;
                    continue;
                }
            };
            assert_eq!(&*super::name(named, number), text, "{row}");
            rows += 1;
        }
        assert!(rows > 80);
    }

    /// An unknown status isn't mapped to another one.
    #[test]
    fn unknown_status() {
        assert_eq!(Fault::of(11, 0), Fault::Unknown(11));
        assert_eq!(Fault::of(23, 0), Fault::Unknown(23));
        assert_eq!(Fault::of(23, 0).to_string(), "unknown status 23");
        for status in 1..=255 {
            assert_eq!(Fault::of(status, 1).status(), status);
        }
    }
}
