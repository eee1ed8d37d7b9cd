//! Data from VRPs, and VRPs of data.

use crate::error::Error;
use crate::faults::Fault;
use crate::net::IpAddr;
use crate::owned_data::Data;
use crate::units::{EndOfData, Ipv4Prefix, Ipv6Prefix, Timing, Unit, UnitRef};
use crate::validation::first_bits;
use alloc::collections::BTreeSet;
use alloc::vec::Vec;
use core::fmt;

/// A validated ROA payload, as validators print it (RFC 6811 section 2).
#[derive(Clone, Copy, Debug, PartialEq, Eq, PartialOrd, Ord, Hash)]
pub struct RoaPayload {
    /// The address of its prefix. Host bits are ignored.
    pub address: IpAddr,
    /// The length of its prefix.
    pub length: u8,
    /// The longest prefix length that the AS may announce; by default the prefix length, as in a
    /// ROA.
    pub max_length: Option<u8>,
    /// Its AS.
    pub asn: u32,
}

impl RoaPayload {
    /// Normalises it: payloads that mean the same become equal.
    fn plain(self) -> RoaPayload {
        RoaPayload {
            address: first_bits(self.address, self.length),
            max_length: self.max_length.or(Some(self.length)),
            ..self
        }
    }

    /// Returns the unit that announces it.
    fn unit(self, version: u8) -> UnitRef<'static> {
        let (length, asn) = (self.length, self.asn);
        let max_length = self.max_length.unwrap_or(length);
        match self.address {
            IpAddr::V4(address) => Unit::Ipv4Prefix(Ipv4Prefix {
                version,
                announce: true,
                address,
                length,
                max_length,
                asn,
            }),
            IpAddr::V6(address) => Unit::Ipv6Prefix(Ipv6Prefix {
                version,
                announce: true,
                address,
                length,
                max_length,
                asn,
            }),
        }
    }

    /// Returns the payload of a unit, if that is a prefix.
    fn of(unit: &UnitRef) -> Option<RoaPayload> {
        let (address, length, max_length, asn) = match unit {
            Unit::Ipv4Prefix(unit) => (unit.address.into(), unit.length, unit.max_length, unit.asn),
            Unit::Ipv6Prefix(unit) => (unit.address.into(), unit.length, unit.max_length, unit.asn),
            _ => return None,
        };
        Some(RoaPayload {
            address,
            length,
            max_length: Some(max_length),
            asn,
        })
    }
}

impl fmt::Display for RoaPayload {
    fn fmt(&self, f: &mut fmt::Formatter<'_>) -> fmt::Result {
        let max_length = self.max_length.unwrap_or(self.length);
        let (address, length) = (self.address, self.length);
        write!(f, "{address}/{length}-{max_length} AS{}", self.asn)
    }
}

/// Why VRPs are refused.
#[derive(Clone, Copy, Debug, PartialEq, Eq, Hash)]
pub struct RoaPayloadError {
    /// The index of the first VRP that can't be encoded, from 0; none if no VRP is at fault.
    pub place: Option<usize>,
    /// What is wrong.
    pub fault: Fault,
}

impl fmt::Display for RoaPayloadError {
    fn fmt(&self, f: &mut fmt::Formatter<'_>) -> fmt::Result {
        match self.place {
            Some(place) => write!(f, "VRP {place}: {}", self.fault),
            None => self.fault.fmt(f),
        }
    }
}

impl Error for RoaPayloadError {}

impl Data {
    /// Returns the data of VRPs in any order. Duplicates are ignored, since validators print one
    /// VRP for each ROA. In versions 1 and 2 the default timing is that which RFC 8210 section 6
    /// recommends.
    ///
    /// ```
    /// use rtr_wire::{Data, RoaPayload};
    ///
    /// let vrp = RoaPayload {
    ///     address: [192, 0, 2, 0].into(),
    ///     length: 24,
    ///     max_length: None,
    ///     asn: 64496,
    /// };
    /// let data = Data::of_vrps([vrp, vrp], 1, 4660, 1, None)?;
    /// let vrps: Vec<String> = data.vrps().map(|vrp| vrp.to_string()).collect();
    /// assert_eq!(vrps, ["192.0.2.0/24-24 AS64496"]);
    /// # Ok::<(), rtr_wire::RoaPayloadError>(())
    /// ```
    ///
    /// # Errors
    ///
    /// `Prefix` for the first VRP whose lengths break a rule, with its index; `UnitVersion` for a
    /// version above 2.
    pub fn of_vrps(
        vrps: impl IntoIterator<Item = RoaPayload>,
        version: u8,
        session: u16,
        serial: u32,
        timing: Option<Timing>,
    ) -> Result<Data, RoaPayloadError> {
        let (mut units, mut seen) = (Vec::new(), BTreeSet::new());
        for (index, vrp) in vrps.into_iter().enumerate() {
            let unit = vrp.unit(version);
            let start = units.len();
            let place = Some(index);
            let appended = unit.append(&mut units);
            appended.map_err(|fault| RoaPayloadError { place, fault })?;
            if !seen.insert(vrp.plain()) {
                units.truncate(start);
            }
        }
        let end: UnitRef = Unit::EndOfData(EndOfData {
            version,
            session,
            serial,
            timing,
        });
        let place = None;
        let appended = end.append(&mut units);
        appended.map_err(|fault| RoaPayloadError { place, fault })?;
        let data = Data::from_sequence(&units);
        data.map_err(|error| RoaPayloadError {
            place,
            fault: error.fault,
        })
    }

    /// Returns the VRPs of the data, in their order.
    pub fn vrps(&self) -> impl Iterator<Item = RoaPayload> + Clone + '_ {
        self.units().filter_map(|unit| RoaPayload::of(&unit))
    }
}
