//! Data and changes in canonical form. Expected values are computed by maps, in the order of names.

use rtr_wire::*;
use std::collections::BTreeMap;

/// Pseudorandom numbers (xorshift).
struct Random(u64);

impl Random {
    fn below(&mut self, limit: u64) -> u64 {
        self.0 ^= self.0 << 13;
        self.0 ^= self.0 >> 7;
        self.0 ^= self.0 << 17;
        self.0 % limit
    }

    fn byte(&mut self, limit: u8) -> u8 {
        self.below(limit.into()) as u8
    }
}

/// A payload: its name, which orders it, and the units that announce it and withdraw it.
#[derive(Clone, PartialEq)]
struct Payload {
    name: Vec<u8>,
    announce: Vec<u8>,
    withdraw: Vec<u8>,
}

/// Parses payloads by RFC 8210 sections 5.6, 5.7 and 5.10 and `docs/PROTOCOL.md`.
fn header(kind: u8, field: [u8; 2], size: usize) -> Vec<u8> {
    let mut bytes = vec![2, kind, field[0], field[1]];
    bytes.extend((size as u32).to_be_bytes());
    bytes
}

fn prefix(family: u8, address: &[u8], length: u8, max_length: u8, asn: u8) -> Payload {
    let unit = |flags| {
        let head = header(family, [0, 0], 16 + address.len());
        let fields = [flags, length, max_length, 0];
        [&head[..], &fields, address, &[0, 0, 0, asn]].concat()
    };
    let name = [&[family], address, &[length, max_length, asn]].concat();
    Payload {
        name,
        announce: unit(1),
        withdraw: unit(0),
    }
}

fn ipv4(last: u8) -> Payload {
    prefix(4, &[192, 0, 2, last], 32, 32, 15)
}

fn key(first: u8, asn: u8, info: &[u8]) -> Payload {
    let unit = |flags| {
        let head = header(9, [flags, 0], 32 + info.len());
        [&head[..], &[first], &[7; 19], &[0, 0, 0, asn], info].concat()
    };
    Payload {
        name: [&[9, first, asn], info].concat(),
        announce: unit(1),
        withdraw: unit(0),
    }
}

fn aspa(customer: u8, providers: &[u8]) -> Payload {
    let unit = |flags, providers: &[u8]| {
        let mut bytes = header(11, [flags, 0], 12 + 4 * providers.len());
        bytes.extend([0, 0, 0, customer]);
        bytes.extend(providers.iter().flat_map(|asn| [0, 0, 0, *asn]));
        bytes
    };
    Payload {
        name: vec![11, customer],
        announce: unit(1, providers),
        withdraw: unit(0, &[]),
    }
}

fn any(random: &mut Random) -> Payload {
    let small = random.byte(3);
    match random.below(4) {
        0 => prefix(
            4,
            &[10, small, 0, 0],
            16,
            16 + random.byte(2),
            random.byte(2),
        ),
        1 => prefix(6, &[small; 16], 128, 128, random.byte(3)),
        2 => key(random.byte(2), random.byte(2), &[9, 8, 7][..small.into()]),
        _ => aspa(small, &[random.byte(2), 9][..=usize::from(random.byte(2))]),
    }
}

/// Payloads by their names.
type Model = BTreeMap<Vec<u8>, Payload>;

fn model(random: &mut Random) -> Model {
    let count = random.below(9);
    (0..count)
        .map(|_| any(random))
        .map(|payload| (payload.name.clone(), payload))
        .collect()
}

/// An end of data of version 2 (as in version 1, RFC 8210 section 5.8).
fn end(session: u8, serial: u8) -> Vec<u8> {
    let timing = [0, 0, 0x0e, 0x10, 0, 0, 2, 0x58, 0, 0, 0x1c, 0x20];
    let head = header(7, [0, session], 24);
    [&head[..], &[0, 0, 0, serial], &timing].concat()
}

/// An end of data of version 0 (RFC 6810 section 5.8).
const END_0: [u8; 12] = [0, 7, 0, 5, 0, 0, 0, 12, 0, 0, 0, 1];

/// The model's data.
fn data(model: &Model, serial: u8) -> Vec<u8> {
    let units = model.values().flat_map(|payload| payload.announce.clone());
    units.chain(end(5, serial)).collect()
}

/// The changes from the first to the second.
fn delta(old: &Model, new: &Model, serial: u8) -> Vec<u8> {
    let announced = new
        .values()
        .filter(|payload| old.get(&payload.name) != Some(payload))
        .flat_map(|payload| payload.announce.clone());
    let withdrawn = old
        .values()
        .filter(|payload| !new.contains_key(&payload.name))
        .flat_map(|payload| payload.withdraw.clone());
    announced.chain(withdrawn).chain(end(5, serial)).collect()
}

/// A call with an output of this length returns these bytes, and leaves the rest of the output
/// unchanged; a shorter output is refused.
fn writes(
    expected: &[u8],
    room: usize,
    mut call: impl FnMut(&mut [u8]) -> Result<usize, DataError>,
) {
    let mut output = vec![0xa5; room];
    assert_eq!(call(&mut output), Ok(expected.len()));
    assert_eq!(output[..expected.len()], *expected);
    assert!(output[expected.len()..].iter().all(|byte| *byte == 0xa5));
    for less in [expected.len() - 1, expected.len() / 2, 0] {
        let error = call(&mut output[..less]).unwrap_err();
        assert_eq!((error.fault, error.place), (Fault::NoRoom, None));
    }
}

#[test]
fn deltas() {
    let mut random = Random(34);
    for _ in 0..3000 {
        let (old, new) = (model(&mut random), model(&mut random));
        let (old_bytes, new_bytes) = (data(&old, 1), data(&new, 2));
        let changes = delta(&old, &new, 2);
        let room = old_bytes.len() + new_bytes.len();
        writes(&changes, room, |output| {
            delta_into(&old_bytes, &new_bytes, output)
        });
        let room = old_bytes.len() + changes.len();
        writes(&new_bytes, room, |output| {
            apply_into(&old_bytes, &changes, output)
        });
        // Bytes after an end of data are ignored.
        let longer = [&old_bytes[..], &[1, 2, 3]].concat();
        writes(&new_bytes, room, |output| {
            apply_into(&longer, &changes, output)
        });
    }
}

/// Random valid changes, one after the other, and the model after them. No ASPA is announced and in
/// the end withdrawn.
fn steps(model: &mut Model, random: &mut Random) -> Vec<u8> {
    let (mut bytes, mut announced) = (Vec::new(), Vec::new());
    for _ in 0..random.below(14) {
        let payload = any(random);
        let is_aspa = payload.name[0] == 11;
        let there = model.contains_key(&payload.name);
        let withdraw = there && (!is_aspa || random.below(2) == 0);
        if !withdraw {
            bytes.extend(&payload.announce);
            announced.push(payload.name.clone());
            model.insert(payload.name.clone(), payload);
        } else if !is_aspa || !announced.contains(&payload.name) {
            bytes.extend(&payload.withdraw);
            model.remove(&payload.name);
        }
    }
    bytes
}

#[test]
fn changes_in_any_order() {
    let mut random = Random(37);
    for _ in 0..3000 {
        let old = model(&mut random);
        let mut new = old.clone();
        let mut sent = steps(&mut new, &mut random);
        sent.extend(end(5, 2));
        let (mut index, mut changes) = (vec![0; sent.len() / 12], vec![0; sent.len()]);
        let length = order_into(&sent, &mut index, &mut changes).expect("all is allowed");
        changes.truncate(length);
        // Changes in canonical form need no ordering.
        writes(&changes, length, |output| {
            order_into(&changes, &mut index, output)
        });
        let (old_bytes, new_bytes) = (data(&old, 1), data(&new, 2));
        writes(&new_bytes, old_bytes.len() + length, |output| {
            apply_into(&old_bytes, &changes, output)
        });
        writes(&new_bytes, old_bytes.len() + sent.len(), |output| {
            apply_in_order(&old_bytes, &sent, &mut index, output)
        });
    }
}

/// The fault of a refused call, which leaves the output unchanged.
fn refused(call: impl FnOnce(&mut [u8]) -> Result<usize, DataError>) -> (Fault, Option<Place>) {
    let mut output = [0xa5; 400];
    let error = call(&mut output).unwrap_err();
    assert_eq!(output, [0xa5; 400]);
    (error.fault, error.place)
}

#[allow(clippy::unnecessary_wraps)] // as errors have it
fn at(side: Side, offset: usize) -> Option<Place> {
    Some(Place { side, offset })
}

/// Bytes that aren't data, with the fault and its offset. `a` and `b` have 20 bytes and are in
/// order.
fn no_data() -> Vec<(Vec<u8>, Fault, usize)> {
    let (a, b, end) = (ipv4(1).announce, ipv4(2).announce, end(5, 1));
    let mut bad = b.clone();
    bad[9] = 33;
    let mut other = b.clone();
    other[0] = 1;
    let over = Fault::Prefix(PrefixRule::LengthOver);
    let end_3 = header(7, [0, 5], 24).iter().map(|_| 3).collect::<Vec<_>>();
    vec![
        (a.clone(), Fault::Short, 20),
        ([&a[..], &b[..19]].concat(), Fault::Short, 20),
        (
            [&a[..], &[2, 10, 0, 0, 0, 0, 0, 16]].concat(),
            Fault::UnitType(10),
            20,
        ),
        ([&a[..], &end_3].concat(), Fault::UnitType(3), 20),
        (
            [&a[..], &[3, 7, 0, 5, 0, 0, 0, 24]].concat(),
            Fault::UnitVersion(3),
            20,
        ),
        (
            [&a[..], &[2, 9, 1, 0, 0, 1, 0, 0]].concat(),
            Fault::TooLong,
            20,
        ),
        (
            [&a[..], &[2, 4, 1, 0, 0, 0, 0, 21]].concat(),
            Fault::UnitLength,
            20,
        ),
        (
            [&a[..], &[2, 11, 1, 0, 0, 0, 0, 12]].concat(),
            Fault::EmptyProviders,
            20,
        ),
        ([&a[..], &bad, &end].concat(), over, 20),
        ([&b[..], &a, &bad].concat(), Fault::NotCanonical, 20),
        ([&a[..], &a, &end].concat(), Fault::NotCanonical, 20),
        ([&a[..], &other, &end].concat(), Fault::NotCanonical, 20),
        ([&a[..], &b, &END_0].concat(), Fault::NotCanonical, 40),
    ]
}

#[test]
fn what_holds_no_data() {
    let good = [ipv4(7).announce, end(5, 2)].concat();
    let nothing = end(5, 0);
    for (bytes, fault, offset) in no_data() {
        let first = (fault, at(Side::First, offset));
        let second = (fault, at(Side::Second, offset));
        assert_eq!(refused(|out| delta_into(&bytes, &good, out)), first);
        assert_eq!(refused(|out| delta_into(&bytes, &[], out)), first);
        assert_eq!(refused(|out| delta_into(&good, &bytes, out)), second);
        assert_eq!(refused(|out| apply_into(&bytes, &nothing, out)), first);
        assert_eq!(refused(|out| apply_into(&nothing, &bytes, out)), second);
    }
    // Withdrawals aren't data, and come last in changes.
    let withdraws = [ipv4(1).withdraw, nothing.clone()].concat();
    let mixed = [ipv4(1).withdraw, ipv4(2).announce, nothing.clone()].concat();
    let twice = [ipv4(1).announce, ipv4(1).withdraw, nothing.clone()].concat();
    let no_data = (Fault::NotCanonical, at(Side::First, 0));
    assert_eq!(refused(|out| delta_into(&withdraws, &good, out)), no_data);
    assert_eq!(
        refused(|out| apply_into(&withdraws, &nothing, out)),
        no_data
    );
    for changes in [mixed, twice] {
        let second = (Fault::NotCanonical, at(Side::Second, 20));
        assert_eq!(refused(|out| apply_into(&good, &changes, out)), second);
    }
}

#[test]
fn inputs_that_do_not_fit_together() {
    let (empty, other) = (end(5, 1), end(6, 2));
    let in_order = |data: &[u8], changes: &[u8], output: &mut [u8]| {
        apply_in_order(data, changes, &mut [0; 9], output)
    };
    for call in [delta_into, apply_into, in_order] {
        let version = refused(|out| call(&empty, &END_0, out)).0;
        assert_eq!(version, Fault::UnitVersion(0));
        let version = refused(|out| call(&END_0, &other, out)).0;
        assert_eq!(version, Fault::UnitVersion(2));
        let session = refused(|out| call(&empty, &other, out)).0;
        assert_eq!(session, Fault::OtherSession);
    }
}

#[test]
fn changes_that_the_rules_refuse() {
    let data = [ipv4(1).announce, aspa(3, &[4]).announce, end(5, 1)].concat();
    let (first, end) = (ipv4(0).announce, end(5, 2));
    let rows = [
        (
            vec![ipv4(1).announce, ipv4(9).withdraw],
            Fault::Duplicate,
            0,
        ),
        (vec![first.clone(), ipv4(1).announce], Fault::Duplicate, 20),
        (
            vec![first.clone(), ipv4(9).withdraw],
            Fault::UnknownRecord,
            20,
        ),
        (
            vec![first.clone(), ipv4(1).withdraw, aspa(4, &[]).withdraw],
            Fault::UnknownRecord,
            40,
        ),
    ];
    for (units, fault, offset) in rows {
        let changes = [units.concat(), end.clone()].concat();
        let expected = (fault, at(Side::Second, offset));
        assert_eq!(refused(|out| apply_into(&data, &changes, out)), expected);
    }
    // An ASPA replaces another.
    let changes = [aspa(3, &[7, 8]).announce, end.clone()].concat();
    let expected = [ipv4(1).announce, aspa(3, &[7, 8]).announce, end].concat();
    writes(&expected, 400, |output| apply_into(&data, &changes, output));
}

/// The fault is that of the first change in the answer that announces a present payload or
/// withdraws a missing one, whatever follows.
#[test]
fn changes_in_order_that_the_rules_refuse() {
    let (a, b, gone) = (ipv4(1), ipv4(2), aspa(4, &[]).withdraw);
    let data = [&a.announce[..], &aspa(3, &[4]).announce, &end(5, 1)].concat();
    let rows = [
        (vec![&b.withdraw, &b.announce], Fault::UnknownRecord, 0),
        (vec![&a.announce, &a.withdraw], Fault::Duplicate, 0),
        (vec![&a.withdraw, &a.withdraw], Fault::UnknownRecord, 20),
        (vec![&b.announce, &a.announce], Fault::Duplicate, 20),
        (vec![&b.withdraw, &a.announce], Fault::UnknownRecord, 0),
        (vec![&a.withdraw, &gone], Fault::UnknownRecord, 20),
    ];
    for (units, fault, offset) in rows {
        let changes = [units.into_iter().flatten().copied().collect(), end(5, 2)].concat();
        let expected = (fault, at(Side::Second, offset));
        let answer = refused(|out| apply_in_order(&data, &changes, &mut [0; 9], out));
        assert_eq!(answer, expected);
    }
    // An ASPA that is announced, even over another one, and then withdrawn is gone.
    let (other, gone) = (aspa(3, &[7, 8]).announce, aspa(3, &[]).withdraw);
    let changes = [&other[..], &gone, &end(5, 2)].concat();
    let expected = [&a.announce[..], &end(5, 2)].concat();
    let mut index = [0; 2];
    writes(&expected, 400, |output| {
        apply_in_order(&data, &changes, &mut index, output)
    });
    let answer = refused(|out| apply_in_order(&data, &changes, &mut [0; 1], out));
    assert_eq!(answer, (Fault::NoIndex, None));
}

#[test]
fn what_has_no_order() {
    let (a, b, end) = (ipv4(1), ipv4(2), end(5, 1));
    let aspa = aspa(3, &[4]);
    let mut other = a.announce.clone();
    other[0] = 1;
    let mut rows = vec![
        (vec![&other, &end], Fault::NotCanonical, 20),
        (vec![&a.announce, &other, &end], Fault::NotCanonical, 20),
        (
            vec![&b.announce, &a.announce, &a.announce, &end],
            Fault::Duplicate,
            40,
        ),
        (
            vec![&b.withdraw, &b.withdraw, &end],
            Fault::UnknownRecord,
            20,
        ),
        (
            vec![&a.withdraw, &a.announce, &a.announce, &end],
            Fault::Duplicate,
            40,
        ),
        (
            vec![&aspa.withdraw, &aspa.withdraw, &end],
            Fault::UnknownRecord,
            12,
        ),
        (
            vec![&aspa.announce, &aspa.announce, &aspa.withdraw, &end],
            Fault::Undecided,
            32,
        ),
    ];
    // The first in the order of payloads, not of the input.
    let both = vec![&b.announce, &b.announce, &a.withdraw, &a.withdraw, &end];
    rows.push((both, Fault::UnknownRecord, 60));
    for (units, fault, offset) in rows {
        let input = units.into_iter().flatten().copied().collect::<Vec<_>>();
        let answer = refused(|out| order_into(&input, &mut [0; 9], out));
        assert_eq!(answer, (fault, at(Side::First, offset)));
    }
    for (bytes, fault, offset) in no_data() {
        if !matches!(fault, Fault::NotCanonical) {
            let answer = refused(|out| order_into(&bytes, &mut [0; 9], out));
            assert_eq!(answer, (fault, at(Side::First, offset)));
        }
    }
    let twice = [&a.announce[..], &a.announce, &end].concat();
    let answer = refused(|out| order_into(&twice, &mut [0; 1], out));
    assert_eq!(answer, (Fault::NoIndex, None));
}

/// A duplicate and a withdrawal of an unknown record are reported by codes 7 and 6 (RFC 8210
/// section 12), with the unit that they are about.
#[test]
fn reports() {
    let data = [ipv4(1).announce, end(5, 1)].concat();
    let rows = [
        (ipv4(1).announce, ErrorCode::DUPLICATE_ANNOUNCEMENT_RECEIVED),
        (ipv4(9).withdraw, ErrorCode::WITHDRAWAL_OF_UNKNOWN_RECORD),
    ];
    for (unit, code) in rows {
        let changes = [&ipv4(0).announce[..], &unit, &end(5, 2)].concat();
        let error = apply_into(&data, &changes, &mut [0; 200]).unwrap_err();
        let report = error.report(&changes, "no").expect("it is owed");
        assert_eq!((report.version, report.code), (2, code));
        let parts = report.parts.expect("it has parts");
        assert_eq!((parts.unit, parts.text), (&unit[..], &b"no"[..]));
        let in_order = apply_in_order(&data, &changes, &mut [0; 9], &mut [0; 200]);
        assert_eq!(in_order.unwrap_err().report(&changes, "no"), Some(report));
    }
    let changes = [ipv4(0).announce, end(6, 2)].concat();
    let error = apply_into(&data, &changes, &mut [0; 200]).unwrap_err();
    assert_eq!(error.report(&changes, "no"), None);
    assert_eq!(error.to_string(), "of another session");
    let error = apply_into(&changes[..20], &changes, &mut [0; 200]).unwrap_err();
    assert_eq!(error.to_string(), "unexpected end of input, at byte 20");
}

#[cfg(feature = "std")]
mod owned {
    use super::*;

    /// The same with data and changes that own their bytes.
    #[test]
    fn same_as_slices() {
        let mut random = Random(11);
        for _ in 0..500 {
            let (old, new) = (model(&mut random), model(&mut random));
            let (old_bytes, new_bytes) = (data(&old, 1), data(&new, 2));
            let (old_data, new_data) = (
                Data::parse(&old_bytes).unwrap(),
                Data::parse(&new_bytes).unwrap(),
            );
            assert_eq!(
                (old_data.as_bytes(), new_data.as_bytes()),
                (&old_bytes[..], &new_bytes[..])
            );
            assert_eq!(
                (old_data.len(), old_data.is_empty()),
                (old.len(), old.is_empty())
            );
            assert_eq!((old_data.end().serial, new_data.end().serial), (1, 2));
            let changes = old_data.delta_to(&new_data).unwrap();
            assert_eq!(changes.as_bytes(), delta(&old, &new, 2));
            assert_eq!(order(changes.as_bytes()), Ok(changes.clone()));
            assert_eq!(old_data.apply(&changes), Ok(new_data.clone()));
            let all = order(&new_bytes).unwrap();
            let nothing = Data::new(2, 5, 0, None).unwrap();
            assert_eq!(nothing.apply(&all), Ok(new_data.clone()));
            assert_eq!(nothing.apply_in_order(&new_bytes), Ok(new_data.clone()));
            let in_order = old_data.apply_in_order(changes.as_bytes());
            assert_eq!(in_order, Ok(new_data.clone()));
            let kinds = |names: &Model| names.keys().map(|name| name[0]).collect::<Vec<_>>();
            let shown = new_data.units().map(|unit| unit.kind() as u8);
            assert_eq!(shown.collect::<Vec<_>>(), kinds(&new));
            assert_eq!(changes.units().count(), changes.len());
            let back = old_data.numbered(5, 2);
            assert_eq!(back.as_bytes(), data(&old, 2));
            assert_eq!((back.end().serial, back == old_data), (2, false));
            assert_eq!(back.numbered(5, 1), old_data);
        }
    }

    #[test]
    fn refusals() {
        for (bytes, fault, offset) in no_data() {
            let error = Data::parse(&bytes).unwrap_err();
            assert_eq!((error.fault, error.place), (fault, at(Side::First, offset)));
        }
        let nothing = Data::new(2, 5, 0, None).unwrap();
        let twice = [ipv4(1).withdraw, end(5, 1)].concat();
        let error = nothing.apply(&order(&twice).unwrap()).unwrap_err();
        assert_eq!(
            (error.fault, error.place),
            (Fault::UnknownRecord, at(Side::Second, 0))
        );
        assert_eq!(nothing.apply_in_order(&twice), Err(error));
        let other = Data::new(2, 6, 0, None).unwrap();
        assert_eq!(
            nothing.delta_to(&other).unwrap_err().fault,
            Fault::OtherSession
        );
        let other = Data::new(0, 5, 0, None).unwrap();
        assert_eq!(
            nothing.delta_to(&other).unwrap_err().fault,
            Fault::UnitVersion(0)
        );
        assert_eq!(Data::new(3, 5, 0, None), Err(Fault::UnitVersion(3)));
    }

    /// Announcements in any order are data.
    #[test]
    fn from_sequences() {
        let (a, b, end) = (ipv4(1), ipv4(2), end(5, 1));
        let data = Data::parse(&[&a.announce[..], &b.announce, &end].concat());
        let other = [&b.announce[..], &a.announce, &end].concat();
        assert_eq!(Data::from_sequence(&other), data);
        let rows = [
            ([&b.announce[..], &b.announce, &end], Fault::Duplicate, 20),
            (
                [&b.announce[..], &a.withdraw, &end],
                Fault::NotCanonical,
                20,
            ),
            (
                [&b.announce[..], &b.withdraw, &end],
                Fault::NotCanonical,
                20,
            ),
            ([&b.announce[..], &a.announce, &[]], Fault::Short, 40),
        ];
        for (units, fault, offset) in rows {
            let error = Data::from_sequence(&units.concat()).unwrap_err();
            assert_eq!((error.fault, error.place), (fault, at(Side::First, offset)));
        }
        assert_eq!(
            Unit::<&[u8]>::CacheReset(CacheReset { version: 1 }).announces(),
            None
        );
    }

    /// Data for a version have its payloads, and an end of data of its length. Free bits are
    /// cleared.
    #[test]
    fn versions() {
        let payloads = [ipv4(1), key(1, 2, &[3]), aspa(4, &[5])];
        let units = payloads.map(|payload| payload.announce).concat();
        let mut stray = [&units[..], &end(5, 1), &[1, 2, 3]].concat();
        stray[2] = 7;
        stray[8] = 3;
        let all = Data::parse(&stray).unwrap();
        assert_eq!(all.as_bytes(), [&units[..], &end(5, 1)].concat());
        for (version, count) in [(0, 1), (1, 2), (2, 3)] {
            let data = all.for_version(version).unwrap();
            assert_eq!((data.len(), data.end().version), (count, version));
            assert!(data.units().all(|unit| unit.version() == version));
            let size = if version == 0 { 12 } else { 24 };
            let payloads = data.units().map(|unit| unit.size()).sum::<usize>();
            assert_eq!(data.as_bytes().len(), payloads + size);
            assert_eq!(Data::parse(data.as_bytes()), Ok(data.clone()));
        }
        assert_eq!(all.for_version(2), Ok(all.clone()));
        assert_eq!(all.for_version(3), Err(Fault::UnitVersion(3)));
        let timing = all
            .for_version(0)
            .unwrap()
            .for_version(1)
            .unwrap()
            .end()
            .timing;
        assert_eq!(timing, Some(Timing::RECOMMENDED));
    }
}
