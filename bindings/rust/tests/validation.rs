//! The tables of VRPs that `tests/libraries/validity.py` computes, with the validity of routes:
//! read from the file that `RTR_VALIDITY` names, or computed by python3. Without python3 nothing is
//! tested here.
#![cfg(feature = "std")]

use rtr_wire::{
    Data, Fault, LengthError, Mismatch, Place, Route, Side, Tables, Unit, Validity, Vrp,
};
use std::net::{IpAddr, Ipv4Addr, Ipv6Addr};
use std::process::Command;

/// A VRP that covers a route, as it was computed.
#[derive(Debug)]
struct Cover {
    place: usize,
    asn: u32,
    length: u8,
    max_length: u8,
    mismatch: Option<Mismatch>,
}

/// A route, its validity, and the VRPs that cover it: all, or the first 255.
struct Row {
    route: Route,
    validity: Validity,
    covering: Vec<Cover>,
}

/// The bytes of the tables, or none without python3 to compute them.
fn bytes_of_tables() -> Option<Vec<u8>> {
    if let Ok(path) = std::env::var("RTR_VALIDITY") {
        return Some(std::fs::read(path).expect("the file of tables is read"));
    }
    let script = concat!(
        env!("CARGO_MANIFEST_DIR"),
        "/../../tests/libraries/validity.py"
    );
    match Command::new("python3").arg(script).output() {
        Ok(output) => {
            let errors = String::from_utf8_lossy(&output.stderr);
            assert!(output.status.success(), "{errors}");
            Some(output.stdout)
        }
        Err(error) if error.kind() == std::io::ErrorKind::NotFound => {
            eprintln!(
                "SKIPPED: there is no python3 to make tables, and RTR_VALIDITY names no file"
            );
            None
        }
        Err(error) => panic!("{error}"),
    }
}

/// A reader of little-endian numbers.
struct Bytes<'a>(&'a [u8]);

impl<'a> Bytes<'a> {
    fn take(&mut self, size: usize) -> &'a [u8] {
        let (taken, rest) = self.0.split_at(size);
        self.0 = rest;
        taken
    }

    fn byte(&mut self) -> u8 {
        self.take(1)[0]
    }

    fn number(&mut self) -> u32 {
        u32::from_le_bytes(self.take(4).try_into().unwrap())
    }

    fn row(&mut self) -> Row {
        let (family, length, validity) = (self.byte(), self.byte(), self.byte());
        let (count, asn) = (self.byte(), self.number());
        let octets: [u8; 16] = self.take(16).try_into().unwrap();
        let address: IpAddr = match family {
            4 => <[u8; 4]>::try_from(&octets[..4]).unwrap().into(),
            _ => octets.into(),
        };
        let validities = [Validity::NotFound, Validity::Valid, Validity::Invalid];
        Row {
            route: Route::new(address, length, asn).expect("its length is in range"),
            validity: validities[usize::from(validity)],
            covering: (0..count).map(|_| self.cover()).collect(),
        }
    }

    fn cover(&mut self) -> Cover {
        let (place, asn) = (self.number() as usize, self.number());
        let (length, max_length, mismatch) = (self.byte(), self.byte(), self.byte());
        self.byte();
        Cover {
            place,
            asn,
            length,
            max_length,
            mismatch: [
                None,
                Some(Mismatch::AsZero),
                Some(Mismatch::OtherAs),
                Some(Mismatch::TooLong),
            ][usize::from(mismatch)],
        }
    }
}

/// The addresses of the prefixes of data.
fn addresses(data: &Data) -> Vec<IpAddr> {
    data.units()
        .map(|unit| match unit {
            Unit::Ipv4Prefix(prefix) => prefix.address.into(),
            Unit::Ipv6Prefix(prefix) => prefix.address.into(),
            other => panic!("{other:?}"),
        })
        .collect()
}

/// Calls this with the data of each table, the addresses of its prefixes, and its routes.
fn for_each_table(mut check: impl FnMut(&Data, &[IpAddr], &[Row])) {
    let bytes = bytes_of_tables().unwrap_or_default();
    let mut rest = Bytes(&bytes);
    while !rest.0.is_empty() {
        let (size, count) = (rest.number() as usize, rest.number());
        let data = Data::parse(rest.take(size)).expect("it is data");
        let rows: Vec<Row> = (0..count).map(|_| rest.row()).collect();
        check(&data, &addresses(&data), &rows);
    }
}

/// The validity of each route is the computed one.
fn check_row(data: &Data, addresses: &[IpAddr], row: &Row) {
    assert_eq!(data.validate(&row.route), row.validity, "{}", row.route);
    let mut covering = data.covering(&row.route);
    for cover in &row.covering {
        let vrp: Vrp = covering.next().expect("one more covers");
        let got = (vrp.place, vrp.asn, vrp.length, vrp.max_length, vrp.mismatch);
        let all = (
            cover.place,
            cover.asn,
            cover.length,
            cover.max_length,
            cover.mismatch,
        );
        assert_eq!(got, all, "{}", row.route);
        assert_eq!(vrp.address, addresses[vrp.place]);
    }
    if row.covering.len() < 255 {
        assert_eq!(covering.next(), None, "{}", row.route);
    }
}

#[test]
fn routes() {
    let mut seen = [0; 3];
    for_each_table(|data, addresses, rows| {
        for row in rows {
            check_row(data, addresses, row);
            seen[row.validity as usize] += 1;
        }
    });
    assert!(
        seen == [0; 3] || seen.iter().all(|count| *count > 100),
        "{seen:?}"
    );
}

#[test]
fn slices() {
    for_each_table(|data, _, rows| {
        let tables = Tables::of(data.as_bytes()).expect("they are data");
        for row in rows {
            assert_eq!(tables.validate(&row.route), row.validity);
        }
    });
}

/// `validate_all` of data and of tables returns the validities of these rows.
fn check_all(data: &Data, rows: &[&Row]) {
    let routes: Vec<Route> = rows.iter().map(|row| row.route).collect();
    let expected: Vec<Validity> = rows.iter().map(|row| row.validity).collect();
    assert_eq!(data.validate_all(&routes), expected);
    let tables = Tables::of(data.as_bytes()).expect("they are data");
    assert_eq!(tables.validate_all(&routes), expected);
}

/// The validities of routes don't depend on their order, on how often each comes, nor on how many
/// there are.
#[test]
fn routes_at_once() {
    for_each_table(|data, _, rows| {
        let mut order: Vec<&Row> = rows.iter().collect();
        check_all(data, &order);
        order.extend(rows);
        order.sort_by_key(|row| row.route.address());
        check_all(data, &order);
        order.reverse();
        check_all(data, &order);
        for count in [0, 1, 4095, 4096, 4097, 10_000] {
            let many: Vec<&Row> = rows.iter().cycle().take(count).collect();
            check_all(data, &many);
        }
    });
}

/// Bytes that aren't data have no tables: the fault is that of `Data::parse`.
#[test]
fn no_data() {
    let (low, high) = (prefix(1), prefix(2));
    let end = [
        1, 7, 0, 9, 0, 0, 0, 24, 0, 0, 0, 3, 0, 0, 14, 16, 0, 0, 2, 88, 0, 0, 28, 32,
    ];
    let response = [1, 3, 0, 9, 0, 0, 0, 8];
    let mut withdrawn = low;
    withdrawn[8] = 0;
    let rows = [
        ([&low[..], &high].concat(), Fault::Short, 40),
        ([&high[..], &low, &end].concat(), Fault::NotCanonical, 20),
        ([&low[..], &low, &end].concat(), Fault::NotCanonical, 20),
        ([&withdrawn[..], &end].concat(), Fault::NotCanonical, 0),
        ([&response[..], &low, &end].concat(), Fault::UnitType(3), 0),
    ];
    for (bytes, fault, offset) in rows {
        let side = Side::First;
        let refused = Tables::of(&bytes).unwrap_err();
        assert_eq!(refused.fault, fault);
        assert_eq!(refused.place, Some(Place { side, offset }));
        assert_eq!(Data::parse(&bytes).unwrap_err(), refused);
    }
    assert!(Tables::of(&[&low[..], &high, &end].concat()).is_ok());
}

/// The unit that announces 10.0.0.0/24 with this third byte, of AS7 (RFC 8210 section 5.6).
fn prefix(third: u8) -> [u8; 20] {
    [
        1, 4, 0, 0, 0, 0, 0, 20, 1, 24, 24, 0, 10, 0, third, 0, 0, 0, 0, 7,
    ]
}

#[test]
fn lengths() {
    assert_eq!(Route::new(Ipv4Addr::LOCALHOST, 33, 1), Err(LengthError));
    assert_eq!(Route::new(Ipv6Addr::LOCALHOST, 129, 1), Err(LengthError));
    let route = Route::new(Ipv4Addr::new(192, 0, 2, 1), 24, 65551).unwrap();
    assert_eq!(route.to_string(), "192.0.2.0/24 AS65551");
    assert_eq!(LengthError.to_string(), "prefix length too large");
}

#[test]
fn no_payloads() {
    let data = Data::new(1, 7, 1, None).unwrap();
    for address in [
        IpAddr::from(Ipv4Addr::UNSPECIFIED),
        Ipv6Addr::UNSPECIFIED.into(),
    ] {
        let route = Route::new(address, 0, 1).unwrap();
        assert_eq!(data.validate(&route), Validity::NotFound);
        assert_eq!(data.covering(&route).count(), 0);
    }
}

#[test]
fn texts() {
    let validities = [Validity::NotFound, Validity::Valid, Validity::Invalid];
    assert_eq!(
        validities.map(|each| each.to_string()),
        ["not found", "valid", "invalid"]
    );
    let mismatches = [Mismatch::AsZero, Mismatch::OtherAs, Mismatch::TooLong];
    let texts = ["AS 0", "another AS", "longer than the max length"];
    assert_eq!(mismatches.map(|each| each.to_string()), texts);
}
