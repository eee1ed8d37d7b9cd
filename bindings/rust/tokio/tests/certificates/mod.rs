//! Certificates that the tests make, in files.
#![allow(dead_code)]

use openssl::asn1::Asn1Time;
use openssl::bn::BigNum;
use openssl::hash::MessageDigest;
use openssl::pkey::{PKey, Private};
use openssl::rsa::Rsa;
use openssl::x509::extension::{BasicConstraints, SubjectAlternativeName};
use openssl::x509::{X509Name, X509};
use std::path::{Path, PathBuf};

/// The name of a cache.
pub const NAME: &str = "cache.example";

/// Who signs certificates.
pub struct Authority {
    certificate: X509,
    key: PKey<Private>,
}

/// What a certificate says of who shows it.
pub enum Names {
    Host(&'static str),
    Address(&'static str),
    /// The name is the subject's, which isn't one of the domain name system.
    Subject(&'static str),
}

fn key() -> PKey<Private> {
    PKey::from_rsa(Rsa::generate(2048).unwrap()).unwrap()
}

fn name(text: &str) -> X509Name {
    let mut name = X509Name::builder().unwrap();
    name.append_entry_by_text("CN", text).unwrap();
    name.build()
}

/// A certificate of these names, from a time on for an hour; without an authority it signs itself.
fn certificate(
    key: &PKey<Private>,
    names: Option<&Names>,
    from: i64,
    by: Option<&Authority>,
) -> X509 {
    let subject = match names {
        Some(Names::Subject(subject)) => name(subject),
        Some(_) => name("peer"),
        None => name("authority"),
    };
    let mut builder = X509::builder().unwrap();
    builder.set_version(2).unwrap();
    let serial = BigNum::from_u32(u32::try_from(from).unwrap()).unwrap();
    builder
        .set_serial_number(&serial.to_asn1_integer().unwrap())
        .unwrap();
    builder.set_subject_name(&subject).unwrap();
    let issuer = by.map_or(&*subject, |by| by.certificate.subject_name());
    builder.set_issuer_name(issuer).unwrap();
    let time = |time| Asn1Time::from_unix(time).unwrap();
    builder.set_not_before(&time(from)).unwrap();
    builder.set_not_after(&time(from + 3600)).unwrap();
    builder.set_pubkey(key).unwrap();
    let mut constraints = BasicConstraints::new();
    if names.is_none() {
        constraints.ca();
    }
    builder
        .append_extension(constraints.critical().build().unwrap())
        .unwrap();
    let mut alternatives = SubjectAlternativeName::new();
    let alternatives = match names {
        Some(Names::Host(host)) => Some(alternatives.dns(host)),
        Some(Names::Address(address)) => Some(alternatives.ip(address)),
        _ => None,
    };
    if let Some(alternatives) = alternatives {
        let extension = alternatives.build(&builder.x509v3_context(None, None));
        builder.append_extension(extension.unwrap()).unwrap();
    }
    let signing = by.map_or(key, |by| &by.key);
    builder.sign(signing, MessageDigest::sha256()).unwrap();
    builder.build()
}

/// The time in seconds since 1970.
pub fn now() -> i64 {
    let time = std::time::UNIX_EPOCH.elapsed().unwrap();
    time.as_secs().try_into().unwrap()
}

impl Authority {
    pub fn new() -> Authority {
        let key = key();
        let certificate = certificate(&key, None, now() - 60, None);
        Authority { certificate, key }
    }
}

/// The certificates and keys of both ends, in a folder that is removed.
pub struct Folder {
    path: PathBuf,
    pub authority: Authority,
    key: PKey<Private>,
}

impl Drop for Folder {
    fn drop(&mut self) {
        let _ = std::fs::remove_dir_all(&self.path);
    }
}

impl Folder {
    pub fn new(name: &str) -> Folder {
        let path = std::env::temp_dir().join(format!("rtr-{name}-{}", std::process::id()));
        std::fs::create_dir_all(&path).unwrap();
        Folder {
            path,
            authority: Authority::new(),
            key: key(),
        }
    }

    /// The files of a side: its certificate, its key, and the authority that it trusts.
    pub fn files(
        &self,
        file: &str,
        names: &Names,
        from: i64,
        by: Option<&Authority>,
    ) -> [PathBuf; 3] {
        let signed = certificate(&self.key, Some(names), from, by);
        let paths = ["pem", "key", "authority"].map(|end| self.path.join(format!("{file}.{end}")));
        let contents = [
            signed.to_pem().unwrap(),
            self.key.private_key_to_pem_pkcs8().unwrap(),
            self.authority.certificate.to_pem().unwrap(),
        ];
        for (path, content) in paths.iter().zip(contents) {
            std::fs::write(path, content).unwrap();
        }
        paths
    }
}

pub fn paths(files: &[PathBuf; 3]) -> [&Path; 3] {
    [&files[0], &files[1], &files[2]]
}
