//! A client and a cache over TLS, which know each other by certificates (RFC 8210 section 9.2).
//!
//! usage: tls cache FILE ADDRESS CERTIFICATE KEY AUTHORITY
//!        tls client ADDRESS NAME CERTIFICATE KEY AUTHORITY
//!
//! FILE is a list or a recording, NAME is that of the cache in its certificate, and the last three
//! are files in PEM: one's own certificate and key, and who signed those of the other.
//!
//! It is over OpenSSL: a cache has to ask routers for certificates and to see the addresses in them
//! (section 9.2). The crate native-tls 0.2 can't ask, and rustls 0.20, of Debian 12, checks
//! only the names of hosts in a certificate.

use openssl::error::ErrorStack;
use openssl::ssl::{Ssl, SslAcceptor, SslConnector, SslContextBuilder, SslFiletype};
use openssl::ssl::{SslMethod, SslOptions, SslVerifyMode};
use openssl::x509::verify::X509CheckFlags;
use rtr_wire::{load_data, ClientOptions, Data, Event, ServerOptions};
use rtr_wire_tokio::{AsyncClient, AsyncServer};
use std::error::Error;
use std::io::{self, ErrorKind};
use std::net::{IpAddr, SocketAddr};
use std::path::Path;
use std::pin::Pin;
use std::process::ExitCode;
use tokio::net::{TcpListener, TcpStream};
use tokio_openssl::SslStream;

/// Lets a side show this certificate, and trust certificates of this authority.
fn identify(
    context: &mut SslContextBuilder,
    [certificate, key, authority]: [&Path; 3],
) -> Result<(), ErrorStack> {
    context.set_options(SslOptions::NO_RENEGOTIATION);
    context.set_certificate_chain_file(certificate)?;
    context.set_private_key_file(key, SslFiletype::PEM)?;
    context.set_ca_file(authority)
}

/// Returns the acceptor of a cache, which wants a certificate of each client.
pub(crate) fn acceptor(files: [&Path; 3]) -> Result<SslAcceptor, ErrorStack> {
    let mut acceptor = SslAcceptor::mozilla_intermediate_v5(SslMethod::tls_server())?;
    identify(&mut acceptor, files)?;
    acceptor.set_verify(SslVerifyMode::PEER | SslVerifyMode::FAIL_IF_NO_PEER_CERT);
    Ok(acceptor.build())
}

/// Returns the connector of a client.
pub(crate) fn connector(files: [&Path; 3]) -> Result<SslConnector, ErrorStack> {
    let mut connector = SslConnector::builder(SslMethod::tls_client())?;
    identify(&mut connector, files)?;
    Ok(connector.build())
}

fn refused(error: impl Into<Box<dyn Error + Send + Sync>>) -> io::Error {
    io::Error::new(ErrorKind::PermissionDenied, error)
}

/// Takes a client whose certificate has the address that it comes from.
pub(crate) async fn accept(
    acceptor: SslAcceptor,
    stream: TcpStream,
) -> io::Result<SslStream<TcpStream>> {
    let from = stream.peer_addr()?.ip();
    let mut stream = SslStream::new(Ssl::new(acceptor.context())?, stream)?;
    let accepted = Pin::new(&mut stream).accept().await;
    accepted.map_err(refused)?;
    let certificate = stream.ssl().peer_certificate();
    let names = certificate.and_then(|certificate| certificate.subject_alt_names());
    let is_from = |address: &[u8]| match from {
        IpAddr::V4(from) => address == from.octets(),
        IpAddr::V6(from) => address == from.octets(),
    };
    let addresses = names.iter().flatten().filter_map(|name| name.ipaddress());
    if addresses.into_iter().any(is_from) {
        Ok(stream)
    } else {
        Err(refused(format!("the certificate isn't of {from}")))
    }
}

/// Connects to a cache whose certificate has this name of the domain name system.
pub(crate) async fn connect(
    connector: SslConnector,
    address: SocketAddr,
    name: String,
) -> io::Result<SslStream<TcpStream>> {
    let mut ssl = connector.configure()?.into_ssl(&name)?;
    let flags = X509CheckFlags::NO_PARTIAL_WILDCARDS | X509CheckFlags::NEVER_CHECK_SUBJECT;
    ssl.param_mut().set_hostflags(flags);
    let stream = TcpStream::connect(address).await?;
    stream.set_nodelay(true)?;
    let mut stream = SslStream::new(ssl, stream)?;
    let connected = Pin::new(&mut stream).connect().await;
    connected.map_err(refused)?;
    Ok(stream)
}

/// Serves the data over TLS.
async fn serve(data: Data, address: &str, acceptor: SslAcceptor) -> Result<(), Box<dyn Error>> {
    let server = AsyncServer::telling(ServerOptions::default(), |from, error| {
        eprintln!("{from}: {error}");
    });
    server.update(data)?;
    let listener = TcpListener::bind(address).await?;
    eprintln!("listening on {}", listener.local_addr()?);
    let ready = |stream| accept(acceptor.clone(), stream);
    server.serve_with(listener, ready).await?;
    Ok(())
}

/// Follows a cache over TLS, and prints how its data change.
async fn follow(address: SocketAddr, name: String, connector: SslConnector) {
    let mut client = AsyncClient::new(ClientOptions::default(), move || {
        connect(connector.clone(), address, name.clone())
    });
    loop {
        match client.next().await {
            Event::Data { data, changes } => {
                println!("serial {}: {} changes", data.end().serial, changes.len());
            }
            Event::Failed(error) => eprintln!("{error}"),
            _ => {}
        }
    }
}

/// Runs the command of these words. Returns `false` if there is none.
async fn run(words: &[&str]) -> Result<bool, Box<dyn Error>> {
    match words {
        ["cache", file, address, files @ ..] if files.len() == 3 => {
            let loaded = load_data(&std::fs::read(file)?)?;
            if loaded.has_cut {
                eprintln!("{file}: left out: an answer without an end of data");
            }
            let files = [files[0], files[1], files[2]].map(Path::new);
            serve(loaded.data, address, acceptor(files)?).await?;
        }
        ["client", address, name, files @ ..] if files.len() == 3 => {
            let files = [files[0], files[1], files[2]].map(Path::new);
            follow(address.parse()?, (*name).to_string(), connector(files)?).await;
        }
        _ => return Ok(false),
    }
    Ok(true)
}

#[tokio::main(flavor = "current_thread")]
async fn main() -> ExitCode {
    let arguments: Vec<String> = std::env::args().skip(1).collect();
    let words: Vec<&str> = arguments.iter().map(String::as_str).collect();
    match run(&words).await {
        Ok(true) => ExitCode::SUCCESS,
        Ok(false) => {
            eprintln!(
                "usage: tls cache FILE ADDRESS CERTIFICATE KEY AUTHORITY\n       \
                 tls client ADDRESS NAME CERTIFICATE KEY AUTHORITY"
            );
            ExitCode::from(2)
        }
        Err(error) => {
            eprintln!("tls: {error}");
            ExitCode::FAILURE
        }
    }
}
