//! Units, typed.

use crate::abi::{self, order, HEADER_SIZE, MOST_REPORT_PARTS, REPORT_SIZE};
use crate::calls;
use crate::faults::{ErrorCode, Fault, PrefixRule};
use crate::kind::Kind;
use crate::net::{Ipv4Addr, Ipv6Addr};
use crate::sys;
#[cfg(feature = "alloc")]
use alloc::vec::Vec;
use core::cmp::Ordering;
use core::ops::Range;

/// Where a header has the length of its unit (RFC 8210 section 5.1).
const LENGTH_FIELD: Range<usize> = 4..HEADER_SIZE;
/// The size of an ASN of an ASPA's providers.
const PROVIDER_SIZE: usize = 4;

/// A serial notify: the cache has new data (RFC 8210 section 5.2).
#[derive(Clone, Copy, Debug, PartialEq, Eq, Hash)]
pub struct SerialNotify {
    /// The version of the protocol.
    pub version: u8,
    /// The session of the cache.
    pub session: u16,
    /// The serial number of the data that it has now.
    pub serial: u32,
}

/// A serial query: a router asks for the changes since a serial number (RFC 8210 section 5.3).
#[derive(Clone, Copy, Debug, PartialEq, Eq, Hash)]
pub struct SerialQuery {
    /// The version of the protocol.
    pub version: u8,
    /// The session that the router's data is from.
    pub session: u16,
    /// The serial number of the router's data.
    pub serial: u32,
}

/// A reset query: a router asks for all data (RFC 8210 section 5.4).
#[derive(Clone, Copy, Debug, PartialEq, Eq, Hash)]
pub struct ResetQuery {
    /// The version of the protocol.
    pub version: u8,
}

/// A cache response: data follows, up to an end of data (RFC 8210 section 5.5).
#[derive(Clone, Copy, Debug, PartialEq, Eq, Hash)]
pub struct CacheResponse {
    /// The version of the protocol.
    pub version: u8,
    /// The session of the cache.
    pub session: u16,
}

/// An IPv4 prefix (RFC 8210 section 5.6).
#[derive(Clone, Copy, Debug, PartialEq, Eq, Hash)]
pub struct Ipv4Prefix {
    /// The version of the protocol.
    pub version: u8,
    /// Whether it is announced; else it is withdrawn.
    pub announce: bool,
    /// The address; when read, its bits after the prefix length are zero.
    pub address: Ipv4Addr,
    /// The length of the prefix.
    pub length: u8,
    /// The longest prefix length that the AS may announce.
    pub max_length: u8,
    /// The autonomous system that may announce the prefix.
    pub asn: u32,
}

/// An IPv6 prefix (RFC 8210 section 5.7).
#[derive(Clone, Copy, Debug, PartialEq, Eq, Hash)]
pub struct Ipv6Prefix {
    /// The version of the protocol.
    pub version: u8,
    /// Whether it is announced; else it is withdrawn.
    pub announce: bool,
    /// The address; when read, its bits after the prefix length are zero.
    pub address: Ipv6Addr,
    /// The length of the prefix.
    pub length: u8,
    /// The longest prefix length that the AS may announce.
    pub max_length: u8,
    /// The autonomous system that may announce the prefix.
    pub asn: u32,
}

/// An end of data (RFC 6810 and RFC 8210 section 5.8).
#[derive(Clone, Copy, Debug, PartialEq, Eq, Hash)]
pub struct EndOfData {
    /// The version of the protocol.
    pub version: u8,
    /// The session of the cache.
    pub session: u16,
    /// The serial number of the data.
    pub serial: u32,
    /// The intervals, which version 0 doesn't have.
    pub timing: Option<Timing>,
}

/// The refresh, retry and expire intervals of an end of data, in seconds.
#[derive(Clone, Copy, Debug, PartialEq, Eq, Hash)]
pub struct Timing {
    /// How long a router waits before it asks again.
    pub refresh: u32,
    /// How long it waits after a query that failed.
    pub retry: u32,
    /// How long it keeps data that it can't refresh.
    pub expire: u32,
}

impl Timing {
    /// The intervals that RFC 8210 section 6 recommends.
    pub const RECOMMENDED: Timing = Timing {
        refresh: abi::USUAL_REFRESH,
        retry: abi::USUAL_RETRY,
        expire: abi::USUAL_EXPIRE,
    };
}

/// A cache reset: the cache can't send the changes since the router's data (RFC 8210 section 5.9).
#[derive(Clone, Copy, Debug, PartialEq, Eq, Hash)]
pub struct CacheReset {
    /// The version of the protocol.
    pub version: u8,
}

/// A router key (RFC 8210 section 5.10).
#[derive(Clone, Copy, Debug, PartialEq, Eq, Hash)]
pub struct RouterKey<B> {
    /// The version of the protocol.
    pub version: u8,
    /// Whether it is announced; else it is withdrawn.
    pub announce: bool,
    /// The subject key identifier.
    pub identifier: [u8; 20],
    /// The autonomous system that the key belongs to.
    pub asn: u32,
    /// The subject public key info, at most 65503 bytes.
    pub key_info: B,
}

/// An error report (RFC 8210 section 5.11).
#[derive(Clone, Copy, Debug, PartialEq, Eq, Hash)]
pub struct ErrorReport<B> {
    /// The version of the protocol.
    pub version: u8,
    /// What was wrong.
    pub code: ErrorCode,
    /// The unit that it is about and its text; none if the lengths inside of the report are wrong.
    pub parts: Option<ReportParts<B>>,
}

/// The parts of an error report, at most 65519 bytes together.
#[derive(Clone, Copy, Debug, PartialEq, Eq, Hash)]
pub struct ReportParts<B> {
    /// The unit that the report is about, or its start, or nothing.
    pub unit: B,
    /// The text, which should be in UTF-8.
    pub text: B,
}

/// An ASPA (as in the Rust crate `rpki`).
#[derive(Clone, Copy, Debug, PartialEq, Eq, Hash)]
pub struct Aspa<B> {
    /// The version of the protocol.
    pub version: u8,
    /// Whether it is announced; else it is withdrawn.
    pub announce: bool,
    /// The autonomous system whose providers these are.
    pub customer: u32,
    /// The providers; a withdrawal may have some, too.
    pub providers: Providers<B>,
}

/// The providers of an ASPA, as they are encoded: four bytes each, in network byte order.
///
/// ```
/// use rtr_wire::Providers;
///
/// let providers = Providers([0, 0, 0xfd, 0xe9, 0, 1, 0, 15]);
/// assert!(providers.iter().eq([65001, 65551]));
/// ```
#[derive(Clone, Copy, Debug, PartialEq, Eq, Hash)]
pub struct Providers<B>(pub B);

impl<B: AsRef<[u8]>> Providers<B> {
    /// Returns the providers as numbers, in their order.
    pub fn iter(&self) -> impl ExactSizeIterator<Item = u32> + DoubleEndedIterator + '_ {
        self.0
            .as_ref()
            .chunks_exact(PROVIDER_SIZE)
            .map(|bytes| u32::from_be_bytes([bytes[0], bytes[1], bytes[2], bytes[3]]))
    }
}

#[cfg(feature = "alloc")]
impl FromIterator<u32> for Providers<Vec<u8>> {
    fn from_iter<I: IntoIterator<Item = u32>>(asns: I) -> Self {
        Providers(asns.into_iter().flat_map(u32::to_be_bytes).collect())
    }
}

/// A unit of any type. `B` are bytes: `&[u8]` in a borrowed unit ([`UnitRef`]), `Vec<u8>` in one
/// that owns them (`OwnedUnit`).
#[derive(Clone, Copy, Debug, PartialEq, Eq, Hash)]
#[non_exhaustive]
pub enum Unit<B> {
    /// A serial notify.
    SerialNotify(SerialNotify),
    /// A serial query.
    SerialQuery(SerialQuery),
    /// A reset query.
    ResetQuery(ResetQuery),
    /// A cache response.
    CacheResponse(CacheResponse),
    /// An IPv4 prefix.
    Ipv4Prefix(Ipv4Prefix),
    /// An IPv6 prefix.
    Ipv6Prefix(Ipv6Prefix),
    /// An end of data.
    EndOfData(EndOfData),
    /// A cache reset.
    CacheReset(CacheReset),
    /// A router key.
    RouterKey(RouterKey<B>),
    /// An error report.
    ErrorReport(ErrorReport<B>),
    /// An ASPA.
    Aspa(Aspa<B>),
}

/// A unit whose key info, providers or parts are borrowed.
pub type UnitRef<'a> = Unit<&'a [u8]>;

/// A unit that owns its key info, providers or parts.
#[cfg(feature = "alloc")]
pub type OwnedUnit = Unit<Vec<u8>>;

/// Returns the size in bytes of the unit at the start of the input, from its header: at most 65535.
/// It is none if the input has fewer than the eight bytes of a header. Later bytes aren't read, and
/// may be missing.
///
/// # Errors
///
/// `UnitType` to `EmptyProviders`, as from [`Unit::first`].
pub fn unit_size(input: &[u8]) -> Result<Option<usize>, Fault> {
    match sys::unit_size(input) {
        Ok(size) => Ok(Some(size)),
        Err(Fault::Short) => Ok(None),
        Err(fault) => Err(fault),
    }
}

impl<'a> UnitRef<'a> {
    /// Parses the unit at the start of the input, and returns it with the rest of the input. It
    /// copies only the fixed fields, and allocates nothing.
    ///
    /// # Errors
    ///
    /// `Short` to `Prefix`. Then [`unit_size`] returns how many bytes are needed (`Short`), or how
    /// many to skip (`Prefix`).
    pub fn first(input: &'a [u8]) -> Result<(Self, &'a [u8]), Fault> {
        let unit = sys::next(input)?;
        let (bytes, rest) = input.split_at(unit.size);
        Ok((unit.typed(bytes), rest))
    }

    /// Returns the unit with a copy of its bytes.
    #[cfg(feature = "alloc")]
    pub fn into_owned(self) -> OwnedUnit {
        self.map(<[u8]>::to_vec)
    }
}

impl<B> Unit<B> {
    /// Returns the type of the unit.
    pub fn kind(&self) -> Kind {
        match self {
            Unit::SerialNotify(_) => Kind::SerialNotify,
            Unit::SerialQuery(_) => Kind::SerialQuery,
            Unit::ResetQuery(_) => Kind::ResetQuery,
            Unit::CacheResponse(_) => Kind::CacheResponse,
            Unit::Ipv4Prefix(_) => Kind::Ipv4Prefix,
            Unit::Ipv6Prefix(_) => Kind::Ipv6Prefix,
            Unit::EndOfData(_) => Kind::EndOfData,
            Unit::CacheReset(_) => Kind::CacheReset,
            Unit::RouterKey(_) => Kind::RouterKey,
            Unit::ErrorReport(_) => Kind::ErrorReport,
            Unit::Aspa(_) => Kind::Aspa,
        }
    }

    /// Returns the version of the protocol.
    pub fn version(&self) -> u8 {
        match self {
            Unit::SerialNotify(unit) => unit.version,
            Unit::SerialQuery(unit) => unit.version,
            Unit::ResetQuery(unit) => unit.version,
            Unit::CacheResponse(unit) => unit.version,
            Unit::Ipv4Prefix(unit) => unit.version,
            Unit::Ipv6Prefix(unit) => unit.version,
            Unit::EndOfData(unit) => unit.version,
            Unit::CacheReset(unit) => unit.version,
            Unit::RouterKey(unit) => unit.version,
            Unit::ErrorReport(unit) => unit.version,
            Unit::Aspa(unit) => unit.version,
        }
    }

    /// Reports whether a payload unit announces; false if it withdraws, none for units of other
    /// types.
    pub fn announces(&self) -> Option<bool> {
        match self {
            Unit::Ipv4Prefix(prefix) => Some(prefix.announce),
            Unit::Ipv6Prefix(prefix) => Some(prefix.announce),
            Unit::RouterKey(key) => Some(key.announce),
            Unit::Aspa(aspa) => Some(aspa.announce),
            _ => None,
        }
    }

    /// Converts the bytes of the unit by a function.
    pub fn map<C>(self, mut bytes: impl FnMut(B) -> C) -> Unit<C> {
        match self {
            Unit::SerialNotify(unit) => Unit::SerialNotify(unit),
            Unit::SerialQuery(unit) => Unit::SerialQuery(unit),
            Unit::ResetQuery(unit) => Unit::ResetQuery(unit),
            Unit::CacheResponse(unit) => Unit::CacheResponse(unit),
            Unit::Ipv4Prefix(unit) => Unit::Ipv4Prefix(unit),
            Unit::Ipv6Prefix(unit) => Unit::Ipv6Prefix(unit),
            Unit::EndOfData(unit) => Unit::EndOfData(unit),
            Unit::CacheReset(unit) => Unit::CacheReset(unit),
            Unit::RouterKey(key) => Unit::RouterKey(RouterKey {
                version: key.version,
                announce: key.announce,
                identifier: key.identifier,
                asn: key.asn,
                key_info: bytes(key.key_info),
            }),
            Unit::ErrorReport(report) => Unit::ErrorReport(ErrorReport {
                version: report.version,
                code: report.code,
                parts: report.parts.map(|parts| ReportParts {
                    unit: bytes(parts.unit),
                    text: bytes(parts.text),
                }),
            }),
            Unit::Aspa(aspa) => Unit::Aspa(Aspa {
                version: aspa.version,
                announce: aspa.announce,
                customer: aspa.customer,
                providers: Providers(bytes(aspa.providers.0)),
            }),
        }
    }
}

impl<B: AsRef<[u8]>> Unit<B> {
    /// Returns the size of the written form in bytes, if the unit can be written.
    #[allow(clippy::match_same_arms)] // in the order of the sections of RFC 8210
    pub fn size(&self) -> usize {
        match self {
            Unit::ResetQuery(_) | Unit::CacheResponse(_) | Unit::CacheReset(_) => HEADER_SIZE,
            Unit::SerialNotify(_) | Unit::SerialQuery(_) => abi::SERIAL_SIZE,
            Unit::Ipv4Prefix(_) => abi::IPV4_SIZE,
            Unit::Ipv6Prefix(_) => abi::IPV6_SIZE,
            Unit::EndOfData(end) if end.version == 0 => abi::SHORTEST_END,
            Unit::EndOfData(_) => abi::LONGEST_END,
            Unit::RouterKey(key) => abi::KEY_SIZE + key.key_info.as_ref().len(),
            Unit::ErrorReport(report) => {
                let (unit, text) = report.parts();
                REPORT_SIZE + unit.len() + text.len()
            }
            Unit::Aspa(aspa) if aspa.announce => abi::ASPA_SIZE + aspa.providers.0.as_ref().len(),
            Unit::Aspa(_) => abi::ASPA_SIZE,
        }
    }

    /// Writes the form of the unit to the output, and returns its length in bytes, at most 65535.
    /// Host bits of an address are cleared, a withdrawn ASPA is written without providers, and an
    /// end of data of version 0 without timings. An end of data of a later version without timings
    /// gets the defaults of RFC 8210 section 6. A report whose lengths are wrong is written
    /// without parts. It allocates nothing.
    ///
    /// ```
    /// use rtr_wire::{ResetQuery, Unit};
    ///
    /// let query: Unit<&[u8]> = Unit::ResetQuery(ResetQuery { version: 1 });
    /// let mut output = [0; 8];
    /// assert_eq!(query.write(&mut output)?, 8);
    /// assert_eq!(output, [1, 2, 0, 0, 0, 0, 0, 8]);
    /// # Ok::<(), rtr_wire::Fault>(())
    /// ```
    ///
    /// # Errors
    ///
    /// In this order: `Prefix`, `TooLong`, `UnitLength`, `EmptyProviders`, `UnitVersion` for an end
    /// of data, `NoRoom`. Then nothing is written.
    pub fn write(&self, output: &mut [u8]) -> Result<usize, Fault> {
        let part: &[u8] = match self {
            Unit::RouterKey(key) => key.key_info.as_ref(),
            Unit::ErrorReport(report) => return report.write(output),
            Unit::Aspa(aspa) => aspa.providers.0.as_ref(),
            _ => &[],
        };
        let unit = sys::Unit::of(self);
        sys::write(&unit, part, output).map_err(|fault| self.detailed(fault))
    }

    /// Adds the detail to the fault of a unit that can't be written, since the archive's call
    /// doesn't return it.
    fn detailed(&self, fault: Fault) -> Fault {
        match (fault, self) {
            (Fault::UnitVersion(_), _) => Fault::UnitVersion(self.version()),
            (Fault::Prefix(_), Unit::Ipv4Prefix(prefix)) => {
                Fault::Prefix(broken(32, prefix.length, prefix.max_length))
            }
            (Fault::Prefix(_), Unit::Ipv6Prefix(prefix)) => {
                Fault::Prefix(broken(128, prefix.length, prefix.max_length))
            }
            (fault, _) => fault,
        }
    }

    /// Appends the form of the unit, and returns its length in bytes. It allocates nothing if the
    /// vector has capacity for [`size`](Unit::size) more bytes.
    ///
    /// # Errors
    ///
    /// Those of [`write`](Unit::write), except `NoRoom`. Then nothing is appended.
    #[cfg(feature = "alloc")]
    pub fn append(&self, to: &mut Vec<u8>) -> Result<usize, Fault> {
        let start = to.len();
        to.resize(start + self.size().min(abi::LONGEST_UNIT), 0);
        let written = self.write(&mut to[start..]);
        to.truncate(start + written.unwrap_or(0));
        written
    }
}

/// Returns the first part of the rule on lengths that a prefix breaks.
fn broken(width: u8, length: u8, max_length: u8) -> PrefixRule {
    if length > width {
        PrefixRule::LengthOver
    } else if max_length > width {
        PrefixRule::MaxLengthOver
    } else {
        PrefixRule::MaxLengthUnder
    }
}

#[cfg(feature = "alloc")]
impl ErrorReport<&[u8]> {
    /// Returns the report with a copy of its bytes.
    pub(crate) fn into_owned(self) -> ErrorReport<Vec<u8>> {
        ErrorReport {
            version: self.version,
            code: self.code,
            parts: self.parts.map(|parts| ReportParts {
                unit: parts.unit.to_vec(),
                text: parts.text.to_vec(),
            }),
        }
    }
}

impl<B: AsRef<[u8]>> ErrorReport<B> {
    /// Returns the unit that the report is about, and its text.
    fn parts(&self) -> (&[u8], &[u8]) {
        match &self.parts {
            Some(parts) => (parts.unit.as_ref(), parts.text.as_ref()),
            None => (&[], &[]),
        }
    }

    /// Writes the report. The archive's call takes the unit and the text only from one buffer, so
    /// it writes a report without a text, and the text is appended.
    fn write(&self, output: &mut [u8]) -> Result<usize, Fault> {
        let (unit, text) = self.parts();
        if unit.len() > MOST_REPORT_PARTS || text.len() > MOST_REPORT_PARTS - unit.len() {
            return Err(Fault::TooLong);
        }
        let size = REPORT_SIZE + unit.len() + text.len();
        if output.len() < size {
            return Err(Fault::NoRoom);
        }
        let number = |length| u32::try_from(length).expect("a report is shorter");
        let start = sys::write(&sys::Unit::of_report(self), unit, output)?;
        output[LENGTH_FIELD].copy_from_slice(&number(size).to_be_bytes());
        output[start - LENGTH_FIELD.len()..start]
            .copy_from_slice(&number(text.len()).to_be_bytes());
        output[start..size].copy_from_slice(text);
        Ok(size)
    }
}

/// Returns the order of two serial numbers (RFC 1982), or none if their distance is 2^31. This
/// order isn't transitive.
///
/// ```
/// use rtr_wire::compare_serials;
/// use std::cmp::Ordering;
///
/// assert_eq!(compare_serials(u32::MAX, 0), Some(Ordering::Less));
/// assert_eq!(compare_serials(0, 1 << 31), None);
/// ```
#[must_use]
pub fn compare_serials(left: u32, right: u32) -> Option<Ordering> {
    match calls::serial_order(left, right) {
        order::EQUAL => Some(Ordering::Equal),
        order::LESS => Some(Ordering::Less),
        order::GREATER => Some(Ordering::Greater),
        _ => None,
    }
}
