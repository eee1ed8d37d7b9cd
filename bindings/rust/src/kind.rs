//! The types of units.

use crate::abi::{kind, named};
use crate::calls;
use crate::error::Error;
use crate::sys;
use core::fmt;

/// The type of a unit, with its number (RFC 8210 section 5; an ASPA as in the Rust crate `rpki`).
#[derive(Clone, Copy, Debug, PartialEq, Eq, PartialOrd, Ord, Hash)]
#[non_exhaustive]
#[repr(u8)]
pub enum Kind {
    /// RFC 8210 section 5.2.
    SerialNotify = kind::SERIAL_NOTIFY,
    /// RFC 8210 section 5.3.
    SerialQuery = kind::SERIAL_QUERY,
    /// RFC 8210 section 5.4.
    ResetQuery = kind::RESET_QUERY,
    /// RFC 8210 section 5.5.
    CacheResponse = kind::CACHE_RESPONSE,
    /// RFC 8210 section 5.6.
    Ipv4Prefix = kind::IPV4_PREFIX,
    /// RFC 8210 section 5.7.
    Ipv6Prefix = kind::IPV6_PREFIX,
    /// RFC 6810 and RFC 8210 section 5.8.
    EndOfData = kind::END_OF_DATA,
    /// RFC 8210 section 5.9.
    CacheReset = kind::CACHE_RESET,
    /// RFC 8210 section 5.10.
    RouterKey = kind::ROUTER_KEY,
    /// RFC 8210 section 5.11.
    ErrorReport = kind::ERROR_REPORT,
    /// As in the Rust crate `rpki`.
    Aspa = kind::ASPA,
}

/// A number that isn't the type of a unit.
#[derive(Clone, Copy, Debug, PartialEq, Eq)]
pub struct UnknownKind(pub u8);

impl fmt::Display for UnknownKind {
    fn fmt(&self, f: &mut fmt::Formatter<'_>) -> fmt::Result {
        write!(f, "no unit has type {}", self.0)
    }
}

impl Error for UnknownKind {}

impl TryFrom<u8> for Kind {
    type Error = UnknownKind;

    fn try_from(number: u8) -> Result<Self, UnknownKind> {
        Ok(match number {
            kind::SERIAL_NOTIFY => Kind::SerialNotify,
            kind::SERIAL_QUERY => Kind::SerialQuery,
            kind::RESET_QUERY => Kind::ResetQuery,
            kind::CACHE_RESPONSE => Kind::CacheResponse,
            kind::IPV4_PREFIX => Kind::Ipv4Prefix,
            kind::IPV6_PREFIX => Kind::Ipv6Prefix,
            kind::END_OF_DATA => Kind::EndOfData,
            kind::CACHE_RESET => Kind::CacheReset,
            kind::ROUTER_KEY => Kind::RouterKey,
            kind::ERROR_REPORT => Kind::ErrorReport,
            kind::ASPA => Kind::Aspa,
            other => return Err(UnknownKind(other)),
        })
    }
}

impl From<Kind> for u8 {
    fn from(kind: Kind) -> u8 {
        kind as u8
    }
}

impl Kind {
    /// Reports whether a version of the protocol has units of this type. Version 0 has all but
    /// router keys and ASPAs, version 1 all but ASPAs, version 2 all; there are no higher versions.
    #[must_use]
    pub fn is_in(self, version: u8) -> bool {
        calls::version_has(version, self.into())
    }

    /// Reports whether a sequence may have units of this type: payload units and the end of data.
    #[must_use]
    pub fn is_in_sequences(self) -> bool {
        matches!(
            self,
            Kind::Ipv4Prefix | Kind::Ipv6Prefix | Kind::EndOfData | Kind::RouterKey | Kind::Aspa
        )
    }
}

impl fmt::Display for Kind {
    fn fmt(&self, f: &mut fmt::Formatter<'_>) -> fmt::Result {
        f.pad(&sys::name(named::KIND, u16::from(*self as u8)))
    }
}
