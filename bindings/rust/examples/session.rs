//! Lists the units of the session on standard input, as a router or a cache has recorded it.

use rtr_wire::{unit_line, Aspa, Reader, Unit, UnitRef};
use std::fmt::Write as _;
use std::io::{stdin, stdout, BufReader, BufWriter, Write};

fn main() -> Result<(), Box<dyn std::error::Error>> {
    let mut reader = Reader::new(BufReader::new(stdin()));
    let mut output = BufWriter::new(stdout());
    let mut offset = 0;
    while let Some(unit) = reader.next_unit()? {
        let (kind, version) = (unit.kind(), unit.version());
        if let Unit::ErrorReport(_) = unit {
            writeln!(output, "{}", unit_line(reader.bytes(), offset)?.0)?;
        } else {
            writeln!(output, "{offset} v{version} {kind}{}", fields(&unit)?)?;
        }
        offset = reader.offset();
    }
    Ok(output.flush()?)
}

/// Returns the fields of a unit as text. A report is printed as the program `rtr_list` does.
fn fields(unit: &UnitRef) -> Result<String, std::fmt::Error> {
    let action = |announce| if announce { "announce" } else { "withdraw" };
    let mut line = String::new();
    match unit {
        Unit::SerialNotify(unit) => {
            write!(line, " session {} serial {}", unit.session, unit.serial)?;
        }
        Unit::SerialQuery(unit) => {
            write!(line, " session {} serial {}", unit.session, unit.serial)?;
        }
        Unit::CacheResponse(unit) => write!(line, " session {}", unit.session)?,
        Unit::Ipv4Prefix(unit) => {
            write!(line, " {} {}", action(unit.announce), unit.address)?;
            write!(line, "/{}-{} AS{}", unit.length, unit.max_length, unit.asn)?;
        }
        Unit::Ipv6Prefix(unit) => {
            write!(line, " {} {}", action(unit.announce), unit.address)?;
            write!(line, "/{}-{} AS{}", unit.length, unit.max_length, unit.asn)?;
        }
        Unit::EndOfData(unit) => {
            write!(line, " session {} serial {}", unit.session, unit.serial)?;
            if let Some(timing) = unit.timing {
                write!(line, " refresh {} retry {}", timing.refresh, timing.retry)?;
                write!(line, " expire {}", timing.expire)?;
            }
        }
        Unit::RouterKey(unit) => {
            write!(line, " {} {}", action(unit.announce), hex(&unit.identifier))?;
            write!(line, " AS{} key info {}", unit.asn, hex(unit.key_info))?;
        }
        Unit::Aspa(unit) => write!(line, " {} {}", action(unit.announce), aspa(unit))?,
        _ => {} // a reset query, a cache reset, or a report
    }
    Ok(line)
}

fn aspa(unit: &Aspa<&[u8]>) -> String {
    let providers = unit.providers.iter().map(|asn| format!(" AS{asn}"));
    format!(
        "AS{} providers{}",
        unit.customer,
        providers.collect::<String>()
    )
}

fn hex(bytes: &[u8]) -> String {
    let mut digits = String::new();
    for byte in bytes {
        write!(digits, "{byte:02x}").expect("a string has room");
    }
    digits
}
