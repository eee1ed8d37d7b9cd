//! Origin validation of routes (RFC 6811).

use crate::abi::mismatch;
use crate::data::DataError;
use crate::error::Error;
use crate::net::{IpAddr, Ipv4Addr, Ipv6Addr};
use crate::sys;
#[cfg(feature = "alloc")]
use alloc::vec::Vec;
use core::fmt;
use core::iter::FusedIterator;

/// The result of origin validation of a route (RFC 6811 section 2).
#[derive(Clone, Copy, Debug, PartialEq, Eq, Hash)]
pub enum Validity {
    /// No VRP covers the route.
    NotFound,
    /// A VRP matches it.
    Valid,
    /// VRPs cover it, and none matches.
    Invalid,
}

impl fmt::Display for Validity {
    fn fmt(&self, f: &mut fmt::Formatter<'_>) -> fmt::Result {
        f.pad(match self {
            Validity::NotFound => "not found",
            Validity::Valid => "valid",
            Validity::Invalid => "invalid",
        })
    }
}

/// Why a VRP that covers a route doesn't match it: the first of these that applies.
#[derive(Clone, Copy, Debug, PartialEq, Eq, Hash)]
pub enum Mismatch {
    /// The VRP is of AS 0, which matches no route.
    AsZero,
    /// Its AS isn't the route's.
    OtherAs,
    /// The route's prefix is longer than its max length.
    TooLong,
}

impl fmt::Display for Mismatch {
    fn fmt(&self, f: &mut fmt::Formatter<'_>) -> fmt::Result {
        f.pad(match self {
            Mismatch::AsZero => "AS 0",
            Mismatch::OtherAs => "another AS",
            Mismatch::TooLong => "longer than the max length",
        })
    }
}

/// A prefix is longer than its address.
#[derive(Clone, Copy, Debug, PartialEq, Eq, Hash)]
pub struct LengthError;

impl fmt::Display for LengthError {
    fn fmt(&self, f: &mut fmt::Formatter<'_>) -> fmt::Result {
        f.write_str("prefix length too large")
    }
}

impl Error for LengthError {}

/// A route: its prefix, and the AS that it originates in.
#[derive(Clone, Copy, Debug, PartialEq, Eq, Hash)]
pub struct Route {
    address: IpAddr,
    length: u8,
    asn: u32,
}

impl Route {
    /// Returns the route of this prefix with this origin AS. Use AS 0 for a route without a single
    /// origin, whose path ends with an `AS_SET`: no VRP matches it. Host bits are cleared.
    ///
    /// # Errors
    ///
    /// A length over 32 for IPv4, or over 128 for IPv6.
    pub fn new(address: impl Into<IpAddr>, length: u8, asn: u32) -> Result<Route, LengthError> {
        let address = address.into();
        let width = if address.is_ipv4() { 32 } else { 128 };
        if length > width {
            return Err(LengthError);
        }
        let address = first_bits(address, length);
        Ok(Route {
            address,
            length,
            asn,
        })
    }

    /// Returns the address of the prefix, whose host bits are zero.
    #[must_use]
    pub fn address(&self) -> IpAddr {
        self.address
    }

    /// Returns the length of the prefix in bits.
    #[must_use]
    pub fn length(&self) -> u8 {
        self.length
    }

    /// Returns the origin AS, or 0 if there is no single origin.
    #[must_use]
    pub fn asn(&self) -> u32 {
        self.asn
    }
}

impl fmt::Display for Route {
    fn fmt(&self, f: &mut fmt::Formatter<'_>) -> fmt::Result {
        write!(f, "{}/{} AS{}", self.address, self.length, self.asn)
    }
}

/// Clears the bits of an address after the prefix length.
pub(crate) fn first_bits(address: IpAddr, length: u8) -> IpAddr {
    match address {
        IpAddr::V4(address) => {
            let after = 32_u32.saturating_sub(length.into());
            let mask = u32::MAX.checked_shl(after).unwrap_or(0);
            Ipv4Addr::from(u32::from(address) & mask).into()
        }
        IpAddr::V6(address) => {
            let after = 128_u32.saturating_sub(length.into());
            let mask = u128::MAX.checked_shl(after).unwrap_or(0);
            Ipv6Addr::from(u128::from(address) & mask).into()
        }
    }
}

/// A validated payload whose prefix covers that of a route.
#[derive(Clone, Copy, Debug, PartialEq, Eq, Hash)]
#[non_exhaustive]
pub struct Vrp {
    /// The index of the payload in the data, from 0.
    pub place: usize,
    /// The address of its prefix.
    pub address: IpAddr,
    /// The length of its prefix.
    pub length: u8,
    /// The longest prefix length that the AS may announce.
    pub max_length: u8,
    /// Its AS.
    pub asn: u32,
    /// Why it doesn't match the route; none if it does.
    pub mismatch: Option<Mismatch>,
}

impl fmt::Display for Vrp {
    fn fmt(&self, f: &mut fmt::Formatter<'_>) -> fmt::Result {
        let (address, length) = (self.address, self.length);
        write!(f, "{address}/{length}-{} AS{}", self.max_length, self.asn)
    }
}

/// Data in canonical form, as [`apply_into`](crate::apply_into) writes them, with the offsets of
/// their prefixes, so that routes are found by binary search. They borrow the data, and are built
/// in two passes over them, without allocation.
///
/// ```
/// use rtr_wire::{Mismatch, Route, Tables, Validity};
/// use std::net::Ipv4Addr;
///
/// // 192.0.2.0/23-26 AS65551, and an end of data (RFC 8210 sections 5.6 and 5.8).
/// let data = [
///     0, 4, 0, 0, 0, 0, 0, 20, 1, 23, 26, 0, 192, 0, 2, 0, 0, 1, 0, 15, //
///     0, 7, 0, 1, 0, 0, 0, 12, 0, 0, 0, 2,
/// ];
/// let tables = Tables::of(&data)?;
/// let route = Route::new(Ipv4Addr::new(192, 0, 2, 0), 27, 65551)?;
/// assert_eq!(tables.validate(&route), Validity::Invalid);
/// let mut covering = tables.covering(&route);
/// assert_eq!(covering.next().and_then(|vrp| vrp.mismatch), Some(Mismatch::TooLong));
/// assert_eq!(covering.next(), None);
/// # Ok::<(), Box<dyn std::error::Error>>(())
/// ```
#[derive(Clone, PartialEq, Eq, Hash)]
pub struct Tables<'a> {
    data: &'a [u8],
    lookup: sys::Lookup,
}

impl<'a> Tables<'a> {
    /// Builds the tables of the data at the start of these bytes. Bytes after the end of data are
    /// ignored.
    ///
    /// # Errors
    ///
    /// `Short` to `Prefix` or `NotCanonical`, with the location of the first fault.
    pub fn of(data: &'a [u8]) -> Result<Tables<'a>, DataError> {
        let lookup = sys::check_data(data)?;
        Ok(Tables { data, lookup })
    }

    /// Returns the validity of the route by the VRPs of the data (RFC 6811 section 2).
    #[must_use]
    pub fn validate(&self, route: &Route) -> Validity {
        sys::validate(self.data, &self.lookup, route)
    }

    /// Returns the validity of each route, as [`Tables::validate`] returns it, in the same order.
    /// The routes may come in any order; it is fastest if those of a family are in the order of
    /// their addresses, as in a routing table.
    #[cfg(feature = "alloc")]
    #[must_use]
    pub fn validate_all(&self, routes: &[Route]) -> Vec<Validity> {
        sys::validate_all(self.data, &self.lookup, routes)
    }

    /// Returns the VRPs of the data that cover the route, in the order of payloads.
    #[must_use]
    pub fn covering(&self, route: &Route) -> Covering<'_> {
        Covering::new(self.data, &self.lookup, route)
    }
}

impl fmt::Debug for Tables<'_> {
    fn fmt(&self, f: &mut fmt::Formatter<'_>) -> fmt::Result {
        f.debug_struct("Tables").finish_non_exhaustive()
    }
}

/// The VRPs that cover a route, in the order of payloads.
#[derive(Clone, Debug)]
pub struct Covering<'a> {
    data: &'a [u8],
    lookup: &'a sys::Lookup,
    route: Route,
    from: Option<usize>,
}

impl<'a> Covering<'a> {
    /// Returns those of the data that the lookup was built from.
    pub(crate) fn new(data: &'a [u8], lookup: &'a sys::Lookup, route: &Route) -> Covering<'a> {
        Covering {
            data,
            lookup,
            route: *route,
            from: Some(0),
        }
    }
}

impl Iterator for Covering<'_> {
    type Item = Vrp;

    fn next(&mut self) -> Option<Vrp> {
        let found = sys::covering(self.data, self.lookup, &self.route, self.from?);
        self.from = found.as_ref().map(|vrp| vrp.place + 1);
        found.map(|vrp| Vrp {
            place: vrp.place,
            address: first_bits(self.route.address, vrp.prefix_length),
            length: vrp.prefix_length,
            max_length: vrp.max_length,
            asn: vrp.asn,
            mismatch: match vrp.mismatch {
                mismatch::AS_ZERO => Some(Mismatch::AsZero),
                mismatch::OTHER_AS => Some(Mismatch::OtherAs),
                mismatch::LONGER => Some(Mismatch::TooLong),
                _ => None,
            },
        })
    }
}

impl FusedIterator for Covering<'_> {}
