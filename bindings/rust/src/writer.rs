//! Writes units to a writer.

use crate::reader::Error;
use crate::units::Unit;
use std::io::Write;
use std::vec::Vec;

/// Writes units to a writer, each by one `write_all`, without buffering: use a
/// [`std::io::BufWriter`] if writes are expensive, and flush that.
///
/// ```
/// use rtr_wire::{OwnedUnit, ResetQuery, Unit, Writer};
///
/// let mut writer = Writer::new(Vec::new());
/// let query: OwnedUnit = Unit::ResetQuery(ResetQuery { version: 1 });
/// writer.write(&query)?;
/// assert_eq!(writer.into_inner(), [1, 2, 0, 0, 0, 0, 0, 8]);
/// # Ok::<(), rtr_wire::Error>(())
/// ```
#[derive(Debug)]
pub struct Writer<W> {
    inner: W,
    buffer: Vec<u8>,
}

impl<W> Writer<W> {
    /// Writes units to this writer.
    pub fn new(inner: W) -> Self {
        Writer {
            inner,
            buffer: Vec::new(),
        }
    }

    /// Returns the writer inside.
    pub fn get_ref(&self) -> &W {
        &self.inner
    }

    /// Returns the writer inside.
    pub fn get_mut(&mut self) -> &mut W {
        &mut self.inner
    }

    /// Returns the writer inside.
    pub fn into_inner(self) -> W {
        self.inner
    }
}

impl<W: Write> Writer<W> {
    /// Writes the form of a unit, as [`Unit::write`] does.
    ///
    /// # Errors
    ///
    /// `NoForm` with a fault of [`Unit::append`], and then nothing is written; `Io` if the writer
    /// fails.
    pub fn write<B: AsRef<[u8]>>(&mut self, unit: &Unit<B>) -> Result<(), Error> {
        self.buffer.clear();
        unit.append(&mut self.buffer).map_err(Error::NoForm)?;
        Ok(self.inner.write_all(&self.buffer)?)
    }

    /// Flushes the writer inside.
    ///
    /// # Errors
    ///
    /// `Io` if that fails.
    pub fn flush(&mut self) -> Result<(), Error> {
        Ok(self.inner.flush()?)
    }
}
