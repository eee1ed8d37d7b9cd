//! The units of a slice.

use crate::faults::Fault;
use crate::kind::Kind;
use crate::units::{Unit, UnitRef};

/// An iterator over the units of a slice, up to its end or the first fault. It parses each unit
/// once, and allocates nothing.
///
/// ```
/// use rtr_wire::{Kind, Units};
///
/// // A reset query and a cache reset (RFC 8210 sections 5.4 and 5.9).
/// let session = [1, 2, 0, 0, 0, 0, 0, 8, 1, 8, 0, 0, 0, 0, 0, 8];
/// let units = Units::new(&session);
/// let kinds: Vec<Kind> = units.map(|unit| Ok(unit?.kind())).collect::<Result<_, _>>()?;
/// assert_eq!(kinds, [Kind::ResetQuery, Kind::CacheReset]);
/// # Ok::<(), rtr_wire::Fault>(())
/// ```
#[derive(Clone, Debug)]
pub struct Units<'a> {
    input: &'a [u8],
    offset: usize,
    /// How many more units a sequence may have; none to read all units of the input.
    limit: Option<u64>,
    ended: bool,
}

impl<'a> Units<'a> {
    /// Iterates over all units of the input, of any type.
    #[must_use]
    pub fn new(input: &'a [u8]) -> Self {
        Units {
            input,
            offset: 0,
            limit: None,
            ended: false,
        }
    }

    /// Iterates over the units of the sequence at the start of the input: payload units up to and
    /// including an end of data, at most `limit` units.
    ///
    /// Faults: `TooMany`, before a unit is parsed; those of [`Unit::first`], with `UnitType` for
    /// every type that isn't allowed in sequences, and `Short` if the input ends before an end of
    /// data.
    #[must_use]
    pub fn sequence(input: &'a [u8], limit: u64) -> Self {
        Units {
            limit: Some(limit),
            ..Units::new(input)
        }
    }

    /// Returns the number of bytes of the units so far; after a fault, the offset of the refused
    /// unit.
    #[must_use]
    pub fn offset(&self) -> usize {
        self.offset
    }

    /// Returns the rest of the input after the units so far.
    #[must_use]
    pub fn rest(&self) -> &'a [u8] {
        &self.input[self.offset..]
    }

    /// Parses the next unit; the rest isn't empty.
    fn parse(&mut self) -> Result<UnitRef<'a>, Fault> {
        let input = self.rest();
        if let Some(left) = self.limit {
            self.limit = Some(left.checked_sub(1).ok_or(Fault::TooMany)?);
            refuse_outside_of_sequences(input)?;
        }
        let (unit, rest) = Unit::first(input)?;
        self.offset = self.input.len() - rest.len();
        Ok(unit)
    }
}

/// Refuses a header of a type that isn't allowed in sequences.
pub(crate) fn refuse_outside_of_sequences(bytes: &[u8]) -> Result<(), Fault> {
    match *bytes {
        [_, number, _, _, _, _, _, _, ..] => match Kind::try_from(number) {
            Ok(kind) if kind.is_in_sequences() => Ok(()),
            _ => Err(Fault::UnitType(number)),
        },
        _ => Ok(()),
    }
}

impl<'a> Iterator for Units<'a> {
    type Item = Result<UnitRef<'a>, Fault>;

    fn next(&mut self) -> Option<Self::Item> {
        if self.ended || (self.limit.is_none() && self.rest().is_empty()) {
            return None;
        }
        let unit = self.parse();
        self.ended = match &unit {
            Ok(unit) => self.limit.is_some() && unit.kind() == Kind::EndOfData,
            Err(_) => true,
        };
        Some(unit)
    }
}

impl core::iter::FusedIterator for Units<'_> {}
