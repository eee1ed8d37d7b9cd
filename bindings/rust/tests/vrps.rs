//! Data from VRPs, and VRPs from data.
#![cfg(feature = "alloc")]

mod common;

use rtr_wire::*;
use std::net::IpAddr;

fn vrp(prefix: &str, max_length: Option<u8>) -> RoaPayload {
    let (address, length) = prefix.split_once('/').unwrap();
    RoaPayload {
        address: address.parse::<IpAddr>().unwrap(),
        length: length.parse().unwrap(),
        max_length,
        asn: 65551,
    }
}

/// The end of data of version 1, session 7 and serial number 9, with the recommended times.
const END: [u8; 24] = [
    1, 7, 0, 7, 0, 0, 0, 24, 0, 0, 0, 9, 0, 0, 14, 16, 0, 0, 2, 88, 0, 0, 28, 32,
];

/// RFC 8210 sections 5.6 to 5.8.
#[test]
fn data_of_vrps() {
    let four = common::IPV4.to_vec();
    let mut six = common::IPV6.to_vec();
    six[0] = 1;
    six[8] = 1;
    let mut exact = four.clone();
    exact[10] = 23;
    let whole = [1, 4, 0, 0, 0, 0, 0, 20, 1, 0, 0, 0, 0, 0, 0, 0, 0, 1, 0, 15];
    let rows: [(&[RoaPayload], Vec<u8>); 6] = [
        (&[], vec![]),
        (&[vrp("192.0.2.0/23", Some(26))], four.clone()),
        (
            &[
                vrp("2001:db8::/32", Some(48)),
                vrp("192.0.2.0/23", Some(26)),
            ],
            [&four[..], &six].concat(),
        ),
        (
            &[vrp("192.0.2.0/23", Some(26)), vrp("192.0.2.0/23", Some(26))],
            four.clone(),
        ),
        (
            &[vrp("192.0.3.7/23", Some(26)), vrp("192.0.2.0/23", Some(26))],
            four.clone(),
        ),
        (
            &[
                vrp("192.0.2.0/23", None),
                vrp("192.0.2.0/23", Some(23)),
                vrp("0.0.0.0/0", None),
            ],
            [&whole[..], &exact].concat(),
        ),
    ];
    for (vrps, units) in rows {
        let data = Data::of_vrps(vrps.iter().copied(), 1, 7, 9, None).unwrap();
        assert_eq!(data.as_bytes(), [&units[..], &END].concat(), "{vrps:?}");
        let again = Data::of_vrps(data.vrps(), 1, 7, 9, None).unwrap();
        assert_eq!(again, data);
    }
}

/// The error for an invalid VRP has the index of the first one.
#[test]
fn refused() {
    let good = vrp("192.0.2.0/24", None);
    for (bad, rule) in [
        (vrp("192.0.2.0/33", None), PrefixRule::LengthOver),
        (vrp("2001:db8::/129", None), PrefixRule::LengthOver),
        (vrp("192.0.2.0/24", Some(33)), PrefixRule::MaxLengthOver),
        (vrp("192.0.2.0/24", Some(23)), PrefixRule::MaxLengthUnder),
    ] {
        let error = Data::of_vrps([good, bad, good], 1, 7, 9, None).unwrap_err();
        let (place, fault) = (error.place, error.fault);
        assert_eq!((place, fault), (Some(1), Fault::Prefix(rule)), "{bad}");
        assert!(error.to_string().starts_with("VRP 1: "), "{error}");
    }
    let error = Data::of_vrps([], 3, 7, 9, None).unwrap_err();
    assert_eq!(error.place, None);
    assert_eq!(error.to_string(), error.fault.to_string());
}

/// From data with other payloads only the VRPs are returned, in order.
#[test]
fn vrps_of_data() {
    let mut bytes = [common::IPV4, common::IPV6].concat();
    let (length, end) = (bytes.len(), END);
    bytes[0] = 1;
    bytes[20] = 1;
    bytes[28] = 1;
    bytes.extend_from_slice(&end);
    assert_eq!(length, 52);
    let data = Data::parse(&bytes).unwrap();
    let lines: Vec<String> = data.vrps().map(|vrp| vrp.to_string()).collect();
    let wanted = ["192.0.2.0/23-26 AS65551", "2001:db8::/32-48 AS65551"];
    assert_eq!(lines, wanted);
}
