//! Data that own their bytes.

use crate::abi::{LONGEST_END, SHORTEST_PAYLOAD};
use crate::canonical::Canonical;
use crate::changes::Changes;
use crate::data::{apply_in_order, apply_into, delta_into, order_into, DataError, Place, Side};
use crate::faults::Fault;
use crate::iter::Units;
use crate::sys;
use crate::units::{EndOfData, Timing, Unit, UnitRef};
use crate::validation::{Covering, Route, Validity};
use alloc::boxed::Box;
use alloc::vec;
use alloc::vec::Vec;

/// The data of a cache or a router, in canonical form. They own their bytes; clones share them.
///
/// They are units that announce payloads, each payload once and one ASPA per customer, and an end
/// of data, all of one version. Payloads are ordered: origins, IPv4 before IPv6, by address, prefix
/// length, max length and ASN; router keys by key identifier, ASN and key info; ASPAs by customer.
///
/// Two data are equal if their payloads and their ends of data are.
///
/// ```
/// use rtr_wire::{Data, Unit};
///
/// // What a cache sends: a prefix and an end of data (RFC 8210 sections 5.6 and 5.8).
/// let sent = [
///     1, 4, 0, 0, 0, 0, 0, 20, 1, 23, 26, 0, 192, 0, 2, 0, 0, 1, 0, 15, //
///     1, 7, 0, 9, 0, 0, 0, 24, 0, 0, 0, 5, 0, 0, 0x0e, 0x10, 0, 0, 2, 0x58, 0, 0, 0x1c, 0x20,
/// ];
/// let nothing = Data::new(1, 9, 4, None)?;
/// let data = nothing.apply_in_order(&sent)?;
/// assert_eq!(data.as_bytes(), sent);
/// assert_eq!((data.len(), data.end().serial), (1, 5));
///
/// // The changes back to no payloads withdraw it.
/// let changes = data.delta_to(&nothing)?;
/// let unit = changes.units().next();
/// assert!(matches!(unit, Some(Unit::Ipv4Prefix(prefix)) if !prefix.announce));
/// assert_eq!(data.apply(&changes)?, nothing);
/// # Ok::<(), Box<dyn std::error::Error>>(())
/// ```
#[derive(Clone, Debug, PartialEq, Eq, Hash)]
pub struct Data(pub(crate) Canonical, Box<sys::Lookup>);

impl Data {
    /// Wraps data in canonical form.
    fn of(canonical: Canonical) -> Data {
        let lookup = sys::check_data(&canonical.bytes).expect("they are in canonical form");
        Data(canonical, Box::new(lookup))
    }

    /// Wraps the first `length` of these bytes, which a call wrote in canonical form.
    pub(crate) fn written(bytes: Vec<u8>, length: usize) -> Data {
        Data::of(Canonical::new(bytes, length))
    }

    /// Wraps these bytes, which a call wrote in canonical form. If much of their capacity is
    /// unused, they are moved to a vector of the exact size, if memory allows.
    pub(crate) fn shrunk(bytes: Vec<u8>) -> Data {
        Data::of(Canonical::shrunk(bytes))
    }

    /// Returns data without payloads. In versions 1 and 2, the default timing is that which RFC
    /// 8210 section 6 recommends.
    ///
    /// # Errors
    ///
    /// `UnitVersion` for a version above 2.
    pub fn new(
        version: u8,
        session: u16,
        serial: u32,
        timing: Option<Timing>,
    ) -> Result<Data, Fault> {
        let end: UnitRef = Unit::EndOfData(EndOfData {
            version,
            session,
            serial,
            timing,
        });
        let mut bytes = Vec::with_capacity(LONGEST_END);
        let length = end.append(&mut bytes)?;
        Ok(Data::of(Canonical::new(bytes, length)))
    }

    /// Parses the data at the start of these bytes, which have to be in canonical form. Bytes after
    /// the end of data are ignored, and bits without a meaning are cleared.
    ///
    /// # Errors
    ///
    /// `Short` to `Prefix` or `NotCanonical`, with the location of the first fault.
    pub fn parse(bytes: &[u8]) -> Result<Data, DataError> {
        // The delta from data to itself is its end of data; applying that returns the data.
        let mut end = [0; LONGEST_END];
        let size = delta_into(bytes, bytes, &mut end)?;
        let mut form = vec![0; bytes.len() + size];
        let length = apply_into(bytes, &end[..size], &mut form)?;
        Ok(Data::of(Canonical::new(form, length)))
    }

    /// Returns the data of a sequence of announcements in any order. Bytes after its end of data
    /// are ignored; [`load_data`](crate::load_data) loads whole recordings.
    ///
    /// # Errors
    ///
    /// `NotCanonical` for the first withdrawal; else those of [`order`].
    pub fn from_sequence(input: &[u8]) -> Result<Data, DataError> {
        let changes = order(input)?;
        let mut units = Units::sequence(input, u64::MAX);
        let mut offset = 0;
        while let Some(Ok(unit)) = units.next() {
            if unit.announces() == Some(false) {
                return Err(DataError {
                    fault: Fault::NotCanonical,
                    place: Some(Place {
                        side: Side::First,
                        offset,
                    }),
                });
            }
            offset = units.offset();
        }
        Ok(Data::of(changes.into_canonical()))
    }

    /// Returns the bytes: payload units, and the end of data.
    #[must_use]
    pub fn as_bytes(&self) -> &[u8] {
        &self.0.bytes
    }

    /// Returns the bytes.
    #[must_use]
    pub fn into_bytes(self) -> Vec<u8> {
        self.0.into_bytes()
    }

    /// Returns the payload units, in order; all are announcements.
    pub fn units(&self) -> impl Iterator<Item = UnitRef<'_>> + Clone + '_ {
        self.0.units()
    }

    /// Returns the end of data, with the version, the session and the serial number.
    #[must_use]
    pub fn end(&self) -> EndOfData {
        self.0.end
    }

    /// Returns the number of payloads, which the first call counts.
    #[must_use]
    pub fn len(&self) -> usize {
        self.0.payloads()
    }

    /// Reports whether there are no payloads.
    #[must_use]
    pub fn is_empty(&self) -> bool {
        self.0.unit_bytes().is_empty()
    }

    /// Returns the validity of the route by the VRPs of the data (RFC 6811 section 2).
    ///
    /// ```
    /// use rtr_wire::{Data, Route, Validity};
    /// use std::net::Ipv4Addr;
    ///
    /// // 192.0.2.0/23-26 AS65551, and an end of data (RFC 8210 sections 5.6 and 5.8).
    /// let data = Data::parse(&[
    ///     0, 4, 0, 0, 0, 0, 0, 20, 1, 23, 26, 0, 192, 0, 2, 0, 0, 1, 0, 15, //
    ///     0, 7, 0, 1, 0, 0, 0, 12, 0, 0, 0, 2,
    /// ])?;
    /// let route = Route::new(Ipv4Addr::new(192, 0, 2, 0), 24, 65551)?;
    /// assert_eq!(data.validate(&route), Validity::Valid);
    /// # Ok::<(), Box<dyn std::error::Error>>(())
    /// ```
    #[must_use]
    pub fn validate(&self, route: &Route) -> Validity {
        sys::validate(self.as_bytes(), &self.1, route)
    }

    /// Returns the validity of each route, as [`Data::validate`] returns it, in the same order. The
    /// routes may come in any order; it is fastest if those of a family are in the order of their
    /// addresses, as in a routing table.
    #[must_use]
    pub fn validate_all(&self, routes: &[Route]) -> Vec<Validity> {
        sys::validate_all(self.as_bytes(), &self.1, routes)
    }

    /// Returns the VRPs of the data that cover the route, in order, each with the reason why it
    /// doesn't match.
    #[must_use]
    pub fn covering(&self, route: &Route) -> Covering<'_> {
        Covering::new(self.as_bytes(), &self.1, route)
    }

    /// Returns the changes from these data to new data (RFC 8210 section 8.2), for
    /// [`apply`](Data::apply). They have the new data's end of data.
    ///
    /// # Errors
    ///
    /// `UnitVersion` with the version of the new data, if these are of another; `OtherSession`.
    pub fn delta_to(&self, new: &Data) -> Result<Changes, DataError> {
        let most = self.0.bytes.len() + new.0.bytes.len();
        let mut bytes = vec![0; most / 8]; // enough for most changes
        let mut length = delta_into(self.as_bytes(), new.as_bytes(), &mut bytes);
        if matches!(length, Err(error) if error.fault == Fault::NoRoom) {
            bytes = vec![0; most];
            length = delta_into(self.as_bytes(), new.as_bytes(), &mut bytes);
        }
        Ok(Changes::of(Canonical::new(bytes, length?)))
    }

    /// Applies changes to these data, and returns the result, with the end of data of the changes.
    /// Either all changes are applied, or none. An announced ASPA replaces the one of its customer.
    ///
    /// # Errors
    ///
    /// In this order: `UnitVersion` with the version of the changes, if the data are of another;
    /// `OtherSession`; `Duplicate` or `UnknownRecord`, with the location of the first change that
    /// isn't allowed.
    pub fn apply(&self, changes: &Changes) -> Result<Data, DataError> {
        let mut bytes = vec![0; self.0.bytes.len() + changes.as_bytes().len()];
        let length = apply_into(self.as_bytes(), changes.as_bytes(), &mut bytes)?;
        Ok(Data::of(Canonical::new(bytes, length)))
    }

    /// Applies the changes of an answer to these data, one after the other, and returns the result,
    /// with the end of data of the changes. Either all changes are applied, or none. An announced
    /// ASPA replaces the one of its customer. The changes are a sequence, as a cache sends it after
    /// its response.
    ///
    /// # Errors
    ///
    /// Those of [`apply_in_order`], except `NoIndex` and `NoRoom`.
    pub fn apply_in_order(&self, sent: &[u8]) -> Result<Data, DataError> {
        let mut index = vec![0; sent.len() / SHORTEST_PAYLOAD];
        let mut bytes = vec![0; self.0.bytes.len() + sent.len()];
        let length = apply_in_order(self.as_bytes(), sent, &mut index, &mut bytes)?;
        Ok(Data::of(Canonical::new(bytes, length)))
    }

    /// Returns the data for clients of a version, as [`normalise_for`](crate::normalise_for) writes
    /// them: without payloads that the version can't carry.
    ///
    /// # Errors
    ///
    /// `UnitVersion` for a version above 2.
    pub fn for_version(&self, version: u8) -> Result<Data, Fault> {
        if version == self.end().version {
            return Ok(self.clone());
        }
        self.0.for_version(version).map(Data::of)
    }

    /// Returns the same payloads in another session and with another serial number.
    #[must_use]
    #[allow(clippy::missing_panics_doc)] // It can't panic: the end of data has a valid version.
    pub fn numbered(&self, session: u16, serial: u32) -> Data {
        let end = EndOfData {
            session,
            serial,
            ..self.0.end
        };
        let unit: UnitRef = Unit::EndOfData(end);
        let mut bytes = self.0.unit_bytes().to_vec();
        unit.append(&mut bytes).expect("its version has this form");
        Data::of(Canonical::of(bytes))
    }
}

/// Returns the net effect of the changes in the sequence at the start of the input, applied one
/// after the other, for [`Data::apply`]. To apply changes without comparing or printing them, use
/// [`Data::apply_in_order`], which takes the sequence as it is.
///
/// # Errors
///
/// Those of [`order_into`], except `NoIndex` and `NoRoom`.
///
/// ```
/// use rtr_wire::{order, Fault};
///
/// // The same prefix twice (RFC 8210 section 5.6), and an end of data.
/// let prefix = [0, 4, 0, 0, 0, 0, 0, 20, 1, 23, 26, 0, 192, 0, 2, 0, 0, 1, 0, 15];
/// let sent = [&prefix[..], &prefix, &[0, 7, 0, 1, 0, 0, 0, 12, 0, 0, 0, 2]].concat();
/// let error = order(&sent).unwrap_err();
/// assert_eq!(error.fault, Fault::Duplicate);
/// assert_eq!(error.to_string(), "duplicate announcement, at byte 20");
/// let report = error.report(&sent, "twice").expect("it is owed");
/// assert_eq!(report.code, rtr_wire::ErrorCode::DUPLICATE_ANNOUNCEMENT_RECEIVED);
/// ```
pub fn order(input: &[u8]) -> Result<Changes, DataError> {
    let mut index = vec![0; input.len() / SHORTEST_PAYLOAD];
    let mut bytes = vec![0; input.len()];
    let length = order_into(input, &mut index, &mut bytes)?;
    Ok(Changes::of(Canonical::new(bytes, length)))
}
