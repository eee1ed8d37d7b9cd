//! Faults of units and calls.

use crate::abi::{code, named, prefix_rule, status, HEADER_SIZE, MOST_REPORT_PARTS};
use crate::error::Error;
use crate::sys;
use crate::units::{ErrorReport, ReportParts};
use core::fmt;

/// Why a call failed. `Short` to `Prefix` are the faults of a unit, in the order in which they are
/// checked.
#[derive(Clone, Copy, Debug, PartialEq, Eq, Hash)]
#[non_exhaustive]
pub enum Fault {
    /// The input ends inside a unit, or before one.
    Short,
    /// A unit of this type is not allowed here.
    UnitType(u8),
    /// A unit of this protocol version is not allowed here.
    UnitVersion(u8),
    /// A router key, an error report or an ASPA has more than 65535 bytes.
    TooLong,
    /// The unit's type doesn't allow this length.
    UnitLength,
    /// An ASPA is announced without providers.
    EmptyProviders,
    /// The lengths of a prefix break this part of their rule.
    Prefix(PrefixRule),
    /// The limit of units was reached before an end of data.
    TooMany,
    /// The output is too short.
    NoRoom,
    /// No unit has these fields.
    NoForm,
    /// A unit, or an end of data, breaks the canonical form of data or changes.
    NotCanonical,
    /// The second input is of another session than the first, or an end of data of another session
    /// than its answer.
    OtherSession,
    /// A payload is announced that is already present.
    Duplicate,
    /// A payload is withdrawn that isn't present.
    UnknownRecord,
    /// An ASPA is announced and then withdrawn, so the net change depends on the data.
    Undecided,
    /// The index has fewer entries than there are units.
    NoIndex,
    /// In a recording, a unit of this version is in an answer of another, or changes data of
    /// another.
    OtherVersion(u8),
    /// In a recording, the serial number of changes comes before that of the data.
    OldSerial,
    /// A cache reset inside an answer.
    ResetInside,
    /// An error report inside an answer.
    ReportInside,
    /// A status that this version of the crate doesn't know.
    Unknown(u8),
}

/// The part of the rule on the lengths of a prefix that is broken.
#[derive(Clone, Copy, Debug, PartialEq, Eq, Hash)]
pub enum PrefixRule {
    /// The prefix length is above that of an address.
    LengthOver,
    /// The max length is above that of an address.
    MaxLengthOver,
    /// The max length is below the prefix length.
    MaxLengthUnder,
}

impl Fault {
    /// Returns the fault of a status other than 0, with its detail.
    pub(crate) fn of(status: u8, detail: u8) -> Self {
        match status {
            status::SHORT => Fault::Short,
            status::UNIT_TYPE => Fault::UnitType(detail),
            status::UNIT_VERSION => Fault::UnitVersion(detail),
            status::TOO_LONG => Fault::TooLong,
            status::UNIT_LENGTH => Fault::UnitLength,
            status::EMPTY_PROVIDERS => Fault::EmptyProviders,
            status::PREFIX => Fault::Prefix(match detail {
                prefix_rule::LENGTH_OVER => PrefixRule::LengthOver,
                prefix_rule::MAX_LENGTH_OVER => PrefixRule::MaxLengthOver,
                _ => PrefixRule::MaxLengthUnder,
            }),
            status::TOO_MANY => Fault::TooMany,
            status::NO_ROOM => Fault::NoRoom,
            status::NO_FORM => Fault::NoForm,
            status::NOT_CANONICAL => Fault::NotCanonical,
            status::OTHER_SESSION => Fault::OtherSession,
            status::DUPLICATE => Fault::Duplicate,
            status::UNKNOWN => Fault::UnknownRecord,
            status::UNDECIDED => Fault::Undecided,
            status::NO_INDEX => Fault::NoIndex,
            status::OTHER_VERSION => Fault::OtherVersion(detail),
            status::OLD_SERIAL => Fault::OldSerial,
            status::RESET_INSIDE => Fault::ResetInside,
            status::REPORT_INSIDE => Fault::ReportInside,
            status => Fault::Unknown(status),
        }
    }

    /// Returns the status, as `rtr.h` numbers it.
    #[must_use]
    pub fn status(self) -> u8 {
        match self {
            Fault::Short => status::SHORT,
            Fault::UnitType(_) => status::UNIT_TYPE,
            Fault::UnitVersion(_) => status::UNIT_VERSION,
            Fault::TooLong => status::TOO_LONG,
            Fault::UnitLength => status::UNIT_LENGTH,
            Fault::EmptyProviders => status::EMPTY_PROVIDERS,
            Fault::Prefix(_) => status::PREFIX,
            Fault::TooMany => status::TOO_MANY,
            Fault::NoRoom => status::NO_ROOM,
            Fault::NoForm => status::NO_FORM,
            Fault::NotCanonical => status::NOT_CANONICAL,
            Fault::OtherSession => status::OTHER_SESSION,
            Fault::Duplicate => status::DUPLICATE,
            Fault::UnknownRecord => status::UNKNOWN,
            Fault::Undecided => status::UNDECIDED,
            Fault::NoIndex => status::NO_INDEX,
            Fault::OtherVersion(_) => status::OTHER_VERSION,
            Fault::OldSerial => status::OLD_SERIAL,
            Fault::ResetInside => status::RESET_INSIDE,
            Fault::ReportInside => status::REPORT_INSIDE,
            Fault::Unknown(status) => status,
        }
    }

    /// Returns the type, the version or the broken rule, as `rtr.h` numbers it, or 0.
    pub(crate) fn detail(self) -> u8 {
        match self {
            Fault::UnitType(detail) | Fault::UnitVersion(detail) | Fault::OtherVersion(detail) => {
                detail
            }
            Fault::Prefix(PrefixRule::LengthOver) => prefix_rule::LENGTH_OVER,
            Fault::Prefix(PrefixRule::MaxLengthOver) => prefix_rule::MAX_LENGTH_OVER,
            Fault::Prefix(PrefixRule::MaxLengthUnder) => prefix_rule::MAX_LENGTH_UNDER,
            _ => 0,
        }
    }

    /// Returns the error code for this fault of the unit at the start of these bytes. It is none if
    /// the peer isn't at fault, and for an error report (RFC 8210 sections 5.11 and 12).
    pub fn code(self, unit: &[u8]) -> Option<ErrorCode> {
        sys::error_code(self.status(), unit).map(ErrorCode)
    }

    /// Returns the error report that the peer is owed for this fault of the unit at the start of
    /// these bytes, if it is owed one (RFC 8210 section 5.11). It has the version of that unit:
    /// change it if the session has another.
    ///
    /// It encloses the unit, or only the header if that is refused, up to 65519 bytes; then as much
    /// of the text as fits. Bytes after the unit are ignored.
    #[must_use]
    pub fn report<'a>(self, unit: &'a [u8], text: &'a str) -> Option<ErrorReport<&'a [u8]>> {
        let code = self.code(unit)?;
        let unit = self.of_unit(unit);
        let enclosed = &unit[..unit.len().min(MOST_REPORT_PARTS)];
        let left = MOST_REPORT_PARTS - enclosed.len();
        let text = &text.as_bytes()[..text.len().min(left)];
        Some(ErrorReport {
            version: unit.first().copied().unwrap_or(0),
            code,
            parts: Some(ReportParts {
                unit: enclosed,
                text,
            }),
        })
    }

    /// Writes its text, and the offset of the unit.
    pub(crate) fn fmt_at(self, f: &mut fmt::Formatter<'_>, offset: u64) -> fmt::Result {
        f.write_str(&sys::text_at(self.status(), self.detail(), offset))
    }

    /// Returns the bytes of the unit with this fault at the start of these bytes: only the header
    /// if that is refused, since its length can't be trusted.
    pub(crate) fn of_unit(self, bytes: &[u8]) -> &[u8] {
        let size = match self {
            Fault::Short => bytes.len(),
            Fault::Prefix(_)
            | Fault::NotCanonical
            | Fault::Duplicate
            | Fault::UnknownRecord
            | Fault::Undecided
            | Fault::OtherVersion(_)
            | Fault::OldSerial
            | Fault::ResetInside
            | Fault::ReportInside => sys::unit_size(bytes).unwrap_or(HEADER_SIZE),
            Fault::TooMany
            | Fault::NoRoom
            | Fault::NoForm
            | Fault::OtherSession
            | Fault::NoIndex => 0,
            _ => HEADER_SIZE,
        };
        &bytes[..size.min(bytes.len())]
    }
}

impl fmt::Display for Fault {
    fn fmt(&self, f: &mut fmt::Formatter<'_>) -> fmt::Result {
        f.pad(&sys::status_text(self.status(), self.detail()))
    }
}

impl Error for Fault {}

/// The code of an error report (RFC 8210 section 12). Codes above 8 are those of the Rust crate
/// `rpki`.
#[derive(Clone, Copy, Debug, PartialEq, Eq, PartialOrd, Ord, Hash)]
pub struct ErrorCode(pub u16);

impl ErrorCode {
    /// The received data can't be parsed, or their fields contradict one another.
    pub const CORRUPT_DATA: Self = ErrorCode(code::CORRUPT_DATA);
    /// The peer had an internal error.
    pub const INTERNAL_ERROR: Self = ErrorCode(code::INTERNAL_ERROR);
    /// The cache has no data yet.
    pub const NO_DATA_AVAILABLE: Self = ErrorCode(code::NO_DATA_AVAILABLE);
    /// The request makes no sense to the cache.
    pub const INVALID_REQUEST: Self = ErrorCode(code::INVALID_REQUEST);
    /// The peer doesn't speak this version of the protocol.
    pub const UNSUPPORTED_PROTOCOL_VERSION: Self = ErrorCode(code::UNSUPPORTED_PROTOCOL_VERSION);
    /// The peer doesn't know units of this type.
    pub const UNSUPPORTED_PDU_TYPE: Self = ErrorCode(code::UNSUPPORTED_PDU_TYPE);
    /// A record was withdrawn that the router doesn't have.
    pub const WITHDRAWAL_OF_UNKNOWN_RECORD: Self = ErrorCode(code::WITHDRAWAL_OF_UNKNOWN_RECORD);
    /// A record was announced that the router already has.
    pub const DUPLICATE_ANNOUNCEMENT_RECEIVED: Self =
        ErrorCode(code::DUPLICATE_ANNOUNCEMENT_RECEIVED);
    /// A unit has another version than the one agreed on.
    pub const UNEXPECTED_PROTOCOL_VERSION: Self = ErrorCode(code::UNEXPECTED_PROTOCOL_VERSION);
    /// The providers of an ASPA unit are not allowed, as in the Rust crate `rpki`.
    pub const ASPA_PROVIDER_LIST_ERROR: Self = ErrorCode(code::ASPA_PROVIDER_LIST_ERROR);
    /// The connection failed, as in the Rust crate `rpki`.
    pub const TRANSPORT_ERROR: Self = ErrorCode(code::TRANSPORT_ERROR);
    /// Units came in the wrong order, as in the Rust crate `rpki`.
    pub const ORDERING_ERROR: Self = ErrorCode(code::ORDERING_ERROR);
}

impl fmt::Display for ErrorCode {
    fn fmt(&self, f: &mut fmt::Formatter<'_>) -> fmt::Result {
        f.pad(&sys::name(named::CODE, self.0))
    }
}
