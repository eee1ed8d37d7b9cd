//! The examples of `docs/RUST.md` on readers and writers, data, and clients.
#![cfg(feature = "std")]

use rtr_wire::{change_line, Client, ClientOptions, Data, DataError, Event};
use rtr_wire::{Error, Fault, Reader, ResetQuery, Unit, UnitRef, Writer};
use rtr_wire::{Server, ServerOptions};
use std::io::{BufReader, ErrorKind, Read, Write};
use std::ops::ControlFlow;

/// Asks a cache for all of its data, and returns its prefixes and its serial number. If a unit is
/// refused, sends the owed report to the cache. Both may be the same `&TcpStream`.
fn fetch(input: impl Read, output: impl Write) -> Result<(Vec<String>, u32), Error> {
    let mut writer = Writer::new(output);
    let query: UnitRef = Unit::ResetQuery(ResetQuery { version: 1 });
    writer.write(&query)?;
    let data = read(&mut Reader::new(BufReader::new(input)));
    if let Err(Error::Refused(refusal)) = &data {
        if let Some(report) = refusal.report() {
            writer.write(&Unit::ErrorReport(report))?;
        }
    }
    data
}

/// Reads a cache response, and the sequence that follows it.
fn read(reader: &mut Reader<impl Read>) -> Result<(Vec<String>, u32), Error> {
    let (mut prefixes, mut serial) = (Vec::new(), 0);
    match reader.next_unit()? {
        Some(Unit::CacheResponse(_)) => {}
        _ => return Err(Error::Io(ErrorKind::InvalidData.into())),
    }
    let mut sequence = reader.sequence(1 << 24);
    while let Some(unit) = sequence.next_unit()? {
        match unit {
            Unit::Ipv4Prefix(prefix) if prefix.announce => {
                prefixes.push(format!("{}/{}", prefix.address, prefix.length));
            }
            Unit::Ipv6Prefix(prefix) if prefix.announce => {
                prefixes.push(format!("{}/{}", prefix.address, prefix.length));
            }
            Unit::EndOfData(end) => serial = end.serial,
            _ => {} // a router key, an ASPA, or something withdrawn
        }
    }
    Ok((prefixes, serial))
}

/// Returns the data after a cache has sent these bytes in answer to a serial query.
fn after(data: &Data, sent: &[u8]) -> Result<Data, DataError> {
    data.apply_in_order(sent)
}

/// Follows a cache until it has this serial number, and prints what changes.
fn watch(address: &str, serial: u32) -> Option<Data> {
    let client = Client::new(address, ClientOptions::default());
    client.run(|event| match event {
        Event::Data { data, changes, .. } => {
            for line in changes.units().filter_map(|unit| change_line(&unit)) {
                println!("{line}");
            }
            if data.end().serial == serial {
                ControlFlow::Break(())
            } else {
                ControlFlow::Continue(())
            }
        }
        Event::Failed(error) => {
            eprintln!("{address}: {error}");
            ControlFlow::Continue(())
        }
        _ => ControlFlow::Continue(()),
    })
}

/// The bytes that a cache sends: a cache response, a prefix and an end of data (RFC 8210 sections
/// 5.5, 5.6 and 5.8).
const SENT: [u8; 52] = [
    1, 3, 0x12, 0x34, 0, 0, 0, 8, //
    1, 4, 0, 0, 0, 0, 0, 20, 1, 23, 26, 0, 192, 0, 2, 0, 0, 1, 0, 15, //
    1, 7, 0x12, 0x34, 0, 0, 0, 24, 0, 0, 0, 5, 0, 0, 0x0e, 0x10, 0, 0, 2, 0x58, 0, 0, 0x1c, 0x20,
];

const QUERY: [u8; 8] = [1, 2, 0, 0, 0, 0, 0, 8];

#[test]
fn fetched() {
    let mut written = Vec::new();
    let data = fetch(&SENT[..], &mut written).expect("all is accepted");
    assert_eq!(data, (vec!["192.0.2.0/23".to_string()], 5));
    assert_eq!(written, QUERY);
}

/// A prefix of 33 bits is reported. A cache that goes away, or has no data, is an error.
#[test]
fn refused() {
    let mut sent = SENT;
    sent[17..19].copy_from_slice(&[33, 33]);
    let mut written = Vec::new();
    let error = fetch(&sent[..], &mut written).unwrap_err();
    assert_eq!(error.to_string(), "prefix length too large, at byte 8");
    assert_eq!(written[..8], QUERY);
    assert_eq!(written[8..20], [1, 10, 0, 0, 0, 0, 0, 59, 0, 0, 0, 20]);
    assert_eq!(written[20..40], sent[8..28]);
    assert_eq!(written[40..], *b"\0\0\0\x17prefix length too large");
    let error = fetch(&SENT[..20], Vec::new()).unwrap_err();
    assert_eq!(error.fault(), Some(Fault::Short));
    assert!(matches!(fetch(&QUERY[..], Vec::new()), Err(Error::Io(_))));
}

#[test]
fn data_and_client() {
    let nothing = Data::new(1, 0x1234, 4, None).expect("there is this version");
    let data = after(&nothing, &SENT[8..]).expect("the changes are allowed");
    assert_eq!(data.as_bytes(), &SENT[8..]);
    let error = after(&data, &SENT[8..]).unwrap_err();
    assert_eq!(error.fault, Fault::Duplicate);
    let server = Server::new(ServerOptions::default());
    let address = server.listen("127.0.0.1:0").expect("a port is free");
    assert_eq!(server.update(data.clone()), Ok(true));
    assert_eq!(watch(&address.to_string(), 5), Some(data));
}
