//! Finds the protocol's rules that units break, as `rtr_list --check` does.

use crate::abi::{FINDING_ROOM, NAME_ROOM};
use crate::calls;
use crate::faults::Fault;
use crate::sys;
use alloc::collections::BTreeSet;
use alloc::string::String;
use alloc::vec;
use alloc::vec::Vec;
use core::fmt;

/// A rule that the unit at an offset breaks, or that all units together break; then the offset is
/// their length. It is displayed as the line of `rtr_list`.
#[derive(Clone, Debug, PartialEq, Eq, Hash)]
#[non_exhaustive]
pub struct Finding {
    /// The number of bytes before the unit.
    pub offset: u64,
    /// The line, without a newline.
    pub line: String,
}

impl fmt::Display for Finding {
    fn fmt(&self, f: &mut fmt::Formatter) -> fmt::Result {
        f.write_str(&self.line)
    }
}

/// A check of consecutive units, which keeps the names of announced payloads. Its findings are
/// those of `rtr_list --check`.
///
/// ```
/// use rtr_wire::Checker;
///
/// // A prefix with host bits (RFC 8210 section 5.6), and no end of data.
/// let recording = [1, 4, 0, 0, 0, 0, 0, 20, 1, 24, 26, 0, 198, 51, 100, 1, 0, 1, 0, 15];
/// let mut checker = Checker::new();
/// let mut findings = Vec::new();
/// let mut rest = &recording[..];
/// while !rest.is_empty() {
///     let (found, size) = checker.unit(rest)?;
///     findings.extend(found);
///     rest = &rest[size..];
/// }
/// findings.extend(checker.finish());
/// assert_eq!(findings[0].line, "offset 0: host bits of the prefix are not zero");
/// assert_eq!(findings[1].line, "offset 20: answer without an end of data");
/// # Ok::<(), rtr_wire::Fault>(())
/// ```
#[derive(Clone, Debug)]
pub struct Checker {
    check: sys::Check,
    names: BTreeSet<Vec<u8>>,
    name: Vec<u8>,
    offset: u64,
}

impl Checker {
    /// Returns a new check.
    #[must_use]
    pub fn new() -> Self {
        Checker {
            check: sys::Check::default(),
            names: BTreeSet::new(),
            name: vec![0; NAME_ROOM],
            offset: 0,
        }
    }

    /// Returns the rules that the unit at the start of the input breaks, and the unit's size.
    ///
    /// # Errors
    ///
    /// Those of [`unit_size`](crate::unit_size), `Short` for an incomplete unit, and
    /// `EmptyProviders` for an ASPA that is announced without providers.
    pub fn unit(&mut self, input: &[u8]) -> Result<(Vec<Finding>, usize), Fault> {
        let naming = sys::check_name(input, &mut self.name)?;
        let name = &self.name[..naming.length];
        let checked = calls::check_unit(&mut self.check, input, self.names.contains(name));
        let offset = self.offset;
        let found = checked.findings.iter();
        let findings = found.filter_map(|finding| to_finding(*finding, offset));
        if naming.begins {
            self.names.clear();
        }
        if naming.announces {
            self.names.insert(name.into());
        } else {
            self.names.remove(name);
        }
        self.offset += naming.size as u64;
        Ok((findings.collect(), naming.size))
    }

    /// Returns the finding for all units together, if there is one.
    #[must_use]
    pub fn finish(&self) -> Option<Finding> {
        to_finding(calls::check_end(&self.check), self.offset)
    }
}

impl Default for Checker {
    fn default() -> Self {
        Checker::new()
    }
}

/// Converts the numbers of a finding; none if they are no finding.
fn to_finding(finding: sys::FindingNumbers, offset: u64) -> Option<Finding> {
    let mut line = vec![0; FINDING_ROOM];
    let length = calls::finding_line(&finding, offset, &mut line);
    line.truncate(length);
    // A line is ASCII.
    let line = String::from_utf8(line).unwrap_or_default();
    (length > 0).then_some(Finding { offset, line })
}
