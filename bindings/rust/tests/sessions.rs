//! The sessions that `tests/libraries/sessions.py` computes: read from the file that `RTR_SESSIONS`
//! names, or computed by python3. Without python3 nothing is tested here.
#![cfg(feature = "std")]

mod computed;

use rtr_wire::*;

/// The computed result for one unit.
struct Answer {
    /// In the order of NUMBERS in `tests/libraries/sessions.py`.
    numbers: [u64; 22],
    address: Vec<u8>,
    identifier: Vec<u8>,
    form: Vec<u8>,
}

/// A reader of the bytes of all sessions.
struct Bytes(Vec<u8>, usize);

impl Bytes {
    fn take(&mut self, count: u64) -> Vec<u8> {
        let from = self.1;
        self.1 += count as usize;
        self.0[from..self.1].to_vec()
    }

    fn number(&mut self) -> u64 {
        u64::from_le_bytes(self.take(8).try_into().unwrap())
    }

    fn answer(&mut self) -> Answer {
        let numbers = std::array::from_fn(|_| self.number());
        let (address, identifier) = (self.take(16), self.take(20));
        let length = self.number();
        Answer {
            numbers,
            address,
            identifier,
            form: self.take(length),
        }
    }
}

/// Each session, with the answer for each of its units.
fn sessions() -> Vec<(Vec<u8>, Vec<Answer>)> {
    let bytes = match computed::cases("RTR_SESSIONS", "libraries/sessions.py", &["cases"]) {
        Some(bytes) => bytes,
        None => return Vec::new(),
    };
    let mut bytes = Bytes(bytes, 0);
    let mut sessions = Vec::new();
    while bytes.1 < bytes.0.len() {
        let (length, count) = (bytes.number(), bytes.number());
        let input = bytes.take(length);
        let answers = (0..count).map(|_| bytes.answer()).collect();
        sessions.push((input, answers));
    }
    assert!(!sessions.is_empty());
    sessions
}

/// The fields of a unit, by their index in NUMBERS. All others are 0.
fn fields(unit: &UnitRef) -> Vec<(usize, u64)> {
    match *unit {
        Unit::SerialNotify(SerialNotify {
            session, serial, ..
        })
        | Unit::SerialQuery(SerialQuery {
            session, serial, ..
        }) => vec![(9, serial.into()), (13, session.into())],
        Unit::CacheResponse(response) => vec![(13, response.session.into())],
        Unit::Ipv4Prefix(prefix) => vec![
            (7, prefix.asn.into()),
            (17, prefix.announce.into()),
            (18, 4),
            (19, prefix.length.into()),
            (20, prefix.max_length.into()),
        ],
        Unit::Ipv6Prefix(prefix) => vec![
            (7, prefix.asn.into()),
            (17, prefix.announce.into()),
            (18, 6),
            (19, prefix.length.into()),
            (20, prefix.max_length.into()),
        ],
        Unit::EndOfData(end) => {
            let mut fields = vec![(9, end.serial.into()), (13, end.session.into())];
            if let Some(timing) = end.timing {
                fields.push((10, timing.refresh.into()));
                fields.push((11, timing.retry.into()));
                fields.push((12, timing.expire.into()));
            }
            fields
        }
        Unit::RouterKey(key) => vec![
            (3, 32),
            (4, key.key_info.len() as u64),
            (7, key.asn.into()),
            (17, key.announce.into()),
        ],
        Unit::ErrorReport(report) => {
            let mut fields = vec![(14, report.code.0.into())];
            if let Some(parts) = report.parts {
                let length = parts.unit.len() as u64;
                fields.extend([(3, 12), (4, length), (5, 16 + length)]);
                fields.push((6, parts.text.len() as u64));
            }
            fields
        }
        Unit::Aspa(aspa) => vec![
            (3, 12),
            (4, aspa.providers.0.len() as u64),
            (8, aspa.customer.into()),
            (17, aspa.announce.into()),
        ],
        _ => Vec::new(),
    }
}

/// The parts of a unit: key info, providers or an enclosed unit, and a text.
fn parts<'a>(unit: &UnitRef<'a>) -> (&'a [u8], &'a [u8]) {
    match unit {
        Unit::RouterKey(key) => (key.key_info, &[]),
        Unit::Aspa(aspa) => (aspa.providers.0, &[]),
        Unit::ErrorReport(ErrorReport {
            parts: Some(parts), ..
        }) => (parts.unit, parts.text),
        _ => (&[], &[]),
    }
}

impl Answer {
    fn check_unit(&self, unit: &UnitRef, read: &[u8]) {
        let mut numbers = [0; 22];
        (numbers[1], numbers[15]) = (read.len() as u64, u8::from(unit.kind()).into());
        numbers[16] = unit.version().into();
        for (place, number) in fields(unit) {
            numbers[place] = number;
        }
        assert_eq!(numbers, self.numbers, "{unit:?}");
        match unit {
            Unit::Ipv4Prefix(prefix) => assert_eq!(self.address[..4], prefix.address.octets()),
            Unit::Ipv6Prefix(prefix) => assert_eq!(self.address, prefix.address.octets()),
            Unit::RouterKey(key) => assert_eq!(self.identifier, key.identifier),
            _ => {}
        }
        let place = |at| &read[self.numbers[at] as usize..][..self.numbers[at + 1] as usize];
        assert_eq!(parts(unit), (place(3), place(5)));
        let mut form = Vec::new();
        assert_eq!(unit.append(&mut form), Ok(self.form.len()));
        assert_eq!(form, self.form);
    }

    fn check_fault(&self, fault: Fault) {
        let numbers = (fault.status().into(), computed::detail(fault).into());
        assert_eq!(numbers, (self.numbers[0], self.numbers[21]));
    }
}

/// Sessions with units of all types, whole, cut off, and hostile, in memory.
#[test]
fn in_memory() {
    for (input, answers) in sessions() {
        let mut rest = &input[..];
        for answer in answers {
            match Unit::first(rest) {
                Ok((unit, after)) => {
                    answer.check_unit(&unit, &rest[..rest.len() - after.len()]);
                    rest = after;
                }
                Err(fault) => {
                    answer.check_fault(fault);
                    // Only a refused prefix is skipped, and then another answer follows.
                    let size = unit_size(rest).ok().flatten().unwrap_or(0);
                    rest = &rest[size.min(rest.len())..];
                }
            }
        }
    }
}

/// A reader returns the same units and faults.
#[test]
fn read() {
    for (input, answers) in sessions() {
        let mut reader = Reader::new(&input[..]);
        for answer in answers {
            let before = reader.offset() as usize;
            match reader.next_unit() {
                Ok(Some(unit)) => {
                    answer.check_unit(&unit, &input[before..][..answer.numbers[1] as usize]);
                }
                Ok(None) => assert_eq!((answer.numbers[0], before), (1, input.len())),
                Err(error) => answer.check_fault(error.fault().expect("no reader fails")),
            }
        }
    }
}
