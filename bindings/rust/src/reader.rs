//! Units from a reader.

use crate::abi::{HEADER_SIZE, LONGEST_UNIT};
use crate::faults::Fault;
use crate::iter::refuse_outside_of_sequences;
use crate::kind::Kind;
use crate::refusal::Refusal;
use crate::sys;
use crate::units::{OwnedUnit, Unit, UnitRef};
use std::fmt;
use std::io::{self, Read};
use std::vec::Vec;

/// The buffer's first size: that of all units but some router keys, error reports and ASPAs.
const FIRST_BUFFER: usize = 64;

/// Why a unit wasn't read or written.
#[derive(Debug)]
#[non_exhaustive]
pub enum Error {
    /// The reader or the writer failed.
    Io(io::Error),
    /// A unit that was read is refused.
    Refused(Refusal),
    /// A unit can't be written.
    NoForm(Fault),
}

impl Error {
    /// Returns the fault of the unit; none if the reader or the writer failed.
    #[must_use]
    pub fn fault(&self) -> Option<Fault> {
        match self {
            Error::Io(_) => None,
            Error::Refused(refusal) => Some(refusal.fault),
            Error::NoForm(fault) => Some(*fault),
        }
    }
}

impl fmt::Display for Error {
    fn fmt(&self, f: &mut fmt::Formatter<'_>) -> fmt::Result {
        match self {
            Error::Io(_) => f.write_str("input or output failed"),
            Error::Refused(refusal) => refusal.fmt(f),
            Error::NoForm(fault) => fault.fmt(f),
        }
    }
}

impl std::error::Error for Error {
    fn source(&self) -> Option<&(dyn std::error::Error + 'static)> {
        match self {
            Error::Io(error) => Some(error),
            Error::Refused(_) | Error::NoForm(_) => None,
        }
    }
}

impl From<io::Error> for Error {
    fn from(error: io::Error) -> Self {
        Error::Io(error)
    }
}

impl From<Error> for io::Error {
    /// Returns the error of the reader or the writer itself; else one of the kind `UnexpectedEof`
    /// for `Short`, `InvalidData` for a unit that was read, and `InvalidInput` for a unit to write.
    fn from(error: Error) -> Self {
        let kind = match &error {
            Error::Io(_) => io::ErrorKind::Other,
            Error::Refused(refusal) if refusal.fault == Fault::Short => {
                io::ErrorKind::UnexpectedEof
            }
            Error::Refused(_) => io::ErrorKind::InvalidData,
            Error::NoForm(_) => io::ErrorKind::InvalidInput,
        };
        match error {
            Error::Io(error) => error,
            error => io::Error::new(kind, error),
        }
    }
}

/// Reads units of all types from a reader, and buffers one at a time. It reads a unit's header, and
/// then exactly the unit's bytes: it never reads ahead. Use a [`std::io::BufReader`] if reads are
/// expensive, as from a socket or a file.
///
/// A length is checked before it is trusted: the buffer never grows for an invalid length, and
/// never above 65535 bytes.
///
/// As an iterator it yields units that own their bytes. It ends at the end of the input, if that is
/// after a whole unit, and after the first error.
///
/// ```
/// use rtr_wire::{Reader, ResetQuery, Unit};
///
/// let input: &[u8] = &[1, 2, 0, 0, 0, 0, 0, 8];
/// for unit in Reader::new(input) {
///     assert_eq!(unit?, Unit::ResetQuery(ResetQuery { version: 1 }));
/// }
/// # Ok::<(), rtr_wire::Error>(())
/// ```
#[derive(Debug)]
pub struct Reader<R> {
    inner: R,
    buffer: Vec<u8>,
    /// The number of bytes in the buffer: of the last unit, or of an incomplete one.
    filled: usize,
    /// The size of the last unit, which the next call drops; 0 after an error.
    size: usize,
    /// The offset of the first byte in the buffer.
    offset: u64,
    /// Whether the iterator has ended.
    ended: bool,
}

impl<R> Reader<R> {
    /// Reads units from this reader.
    pub fn new(inner: R) -> Self {
        Reader {
            inner,
            buffer: std::vec![0; FIRST_BUFFER],
            filled: 0,
            size: 0,
            offset: 0,
            ended: false,
        }
    }

    /// Returns the offset of the next unit, in bytes.
    pub fn offset(&self) -> u64 {
        self.offset + self.size as u64
    }

    /// Returns the bytes of the last unit, as they were read, or of a refused prefix; none after
    /// other errors.
    pub fn bytes(&self) -> &[u8] {
        &self.buffer[..self.size]
    }

    /// Returns the reader inside.
    pub fn get_ref(&self) -> &R {
        &self.inner
    }

    /// Returns the reader inside. Bytes that are read from it directly are missing here.
    pub fn get_mut(&mut self) -> &mut R {
        &mut self.inner
    }

    /// Returns the reader inside. The bytes of an incomplete unit are lost.
    pub fn into_inner(self) -> R {
        self.inner
    }

    /// Returns the error for a fault of the unit in the buffer.
    fn refusal(&self, fault: Fault) -> Error {
        Error::Refused(Refusal {
            fault,
            offset: self.offset,
            unit: fault.of_unit(&self.buffer[..self.filled]).to_vec(),
        })
    }
}

impl<R: Read> Reader<R> {
    /// Reads a unit, and lends it until the next call; [`Unit::into_owned`] keeps it. It is none if
    /// the input ends after a whole unit. Each unit is parsed once, and nothing is allocated unless
    /// the buffer has to grow or there is an error.
    ///
    /// # Errors
    ///
    /// - `Refused` with `Short` if the input ends inside a unit;
    /// - `Refused` with `UnitType` to `EmptyProviders` if a header is refused. Later bytes aren't
    ///   read, and each call returns the same error;
    /// - `Refused` with `Prefix` if the lengths of a prefix break their rule. The next call skips
    ///   that unit;
    /// - `Io` if the reader fails, except for `Interrupted`, which is retried. Bytes that were read
    ///   stay buffered, so the next call continues, for example after a timeout.
    pub fn next_unit(&mut self) -> Result<Option<UnitRef<'_>>, Error> {
        if self.read_unit(false)? {
            return self.parse().map(Some);
        }
        Ok(None)
    }

    /// Reads the sequence that begins with the next unit: payload units up to and including an end
    /// of data. It reads at most `limit` units, including the end of data.
    pub fn sequence(&mut self, limit: u64) -> Sequence<'_, R> {
        Sequence {
            reader: self,
            limit,
            ended: false,
        }
    }

    /// Reads the bytes of a unit, and returns whether there is one. `in_sequence` refuses types
    /// that aren't allowed in sequences.
    fn read_unit(&mut self, in_sequence: bool) -> Result<bool, Error> {
        if self.size > 0 {
            self.offset += self.size as u64;
            (self.filled, self.size) = (0, 0);
        }
        if !self.fill(HEADER_SIZE)? {
            return match self.filled {
                0 => Ok(false),
                _ => Err(self.refusal(Fault::Short)),
            };
        }
        let header = &self.buffer[..HEADER_SIZE];
        if in_sequence {
            refuse_outside_of_sequences(header).map_err(|fault| self.refusal(fault))?;
        }
        let size = sys::unit_size(header).map_err(|fault| self.refusal(fault))?;
        if !self.fill(size)? {
            return Err(self.refusal(Fault::Short));
        }
        self.size = size;
        Ok(true)
    }

    /// Parses the unit in the buffer.
    fn parse(&self) -> Result<UnitRef<'_>, Error> {
        match Unit::first(&self.buffer[..self.size]) {
            Ok((unit, _)) => Ok(unit),
            Err(fault) => Err(self.refusal(fault)),
        }
    }

    /// Reads until the buffer has `size` bytes of the unit, and returns whether it does.
    fn fill(&mut self, size: usize) -> Result<bool, Error> {
        if size > self.buffer.len() {
            // At least doubles the buffer.
            let grown = size.max(2 * self.buffer.len()).min(LONGEST_UNIT);
            self.buffer.resize(grown, 0);
        }
        while self.filled < size {
            match self.inner.read(&mut self.buffer[self.filled..size]) {
                Ok(0) => return Ok(false),
                Ok(count) if count <= size - self.filled => self.filled += count,
                Ok(_) => return Err(impossible_count()),
                Err(error) if error.kind() == io::ErrorKind::Interrupted => {}
                Err(error) => return Err(error.into()),
            }
        }
        Ok(true)
    }
}

/// Returns the error for a reader that returns a larger count than the buffer it got.
fn impossible_count() -> Error {
    io::Error::new(io::ErrorKind::Other, "impossible count of bytes read").into()
}

impl<R: Read> Iterator for Reader<R> {
    type Item = Result<OwnedUnit, Error>;

    fn next(&mut self) -> Option<Self::Item> {
        if self.ended {
            return None;
        }
        let unit = self.next_unit().map(|unit| unit.map(Unit::into_owned));
        self.ended = !matches!(unit, Ok(Some(_)));
        unit.transpose()
    }
}

impl<R: Read> std::iter::FusedIterator for Reader<R> {}

/// A sequence that a [`Reader`] reads: payload units up to an end of data, as a cache sends them
/// after its cache response. It is an iterator over units that own their bytes;
/// [`Sequence::next_unit`] lends them.
///
/// ```
/// use rtr_wire::{Reader, Unit};
///
/// // An end of data of version 0 (RFC 6810 section 5.8).
/// let input: &[u8] = &[0, 7, 0, 1, 0, 0, 0, 12, 0, 0, 0, 2];
/// let mut reader = Reader::new(input);
/// let mut sequence = reader.sequence(1 << 24);
/// while let Some(unit) = sequence.next_unit()? {
///     if let Unit::EndOfData(end) = unit {
///         assert_eq!(end.serial, 2);
///     }
/// }
/// # Ok::<(), rtr_wire::Error>(())
/// ```
#[derive(Debug)]
pub struct Sequence<'r, R> {
    reader: &'r mut Reader<R>,
    limit: u64,
    ended: bool,
}

impl<R: Read> Sequence<'_, R> {
    /// Reads a unit, and lends it until the next call. It is none after the end of data, and after
    /// an error other than `Io`.
    ///
    /// # Errors
    ///
    /// `Refused` with `TooMany`, before a unit is read; those of [`Reader::next_unit`], with
    /// `UnitType` before any other fault for a type that isn't allowed in sequences, and `Short` if
    /// the input ends before an end of data.
    pub fn next_unit(&mut self) -> Result<Option<UnitRef<'_>>, Error> {
        if self.ended {
            return Ok(None);
        }
        self.read_unit().map_err(|error| {
            self.ended = error.fault().is_some();
            error
        })?;
        let unit = self.reader.parse();
        self.ended = !matches!(&unit, Ok(unit) if unit.kind() != Kind::EndOfData);
        unit.map(Some)
    }

    /// Reads the bytes of a unit; the end of the input is an error.
    fn read_unit(&mut self) -> Result<(), Error> {
        if self.limit == 0 {
            return Err(Error::Refused(Refusal {
                fault: Fault::TooMany,
                offset: self.reader.offset(),
                unit: Vec::new(),
            }));
        }
        if !self.reader.read_unit(true)? {
            return Err(self.reader.refusal(Fault::Short));
        }
        self.limit -= 1;
        Ok(())
    }
}

impl<R: Read> Iterator for Sequence<'_, R> {
    type Item = Result<OwnedUnit, Error>;

    fn next(&mut self) -> Option<Self::Item> {
        let unit = self.next_unit().map(|unit| unit.map(Unit::into_owned));
        self.ended |= unit.is_err();
        unit.transpose()
    }
}

impl<R: Read> std::iter::FusedIterator for Sequence<'_, R> {}

#[cfg(test)]
mod tests {
    use super::{Reader, LONGEST_UNIT};
    use std::vec::Vec;

    /// The buffer never has more bytes than the longest unit.
    #[test]
    fn buffer() {
        let sizes = [40_000_u32, 40_001, 65_535];
        let mut bytes = Vec::new();
        for size in sizes {
            let end = bytes.len() + size as usize;
            bytes.extend([1, 9, 1, 0]);
            bytes.extend(size.to_be_bytes());
            bytes.resize(end, 0);
        }
        let mut reader = Reader::new(&bytes[..]);
        while reader.next_unit().expect("it is read").is_some() {
            assert!(reader.buffer.len() <= LONGEST_UNIT);
        }
        assert_eq!(reader.offset(), 145_536);
    }
}
