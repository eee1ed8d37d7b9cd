//! TLS for the programs of this folder, by a file with a certificate for localhost, by which both
//! ends are known, and its key.
#![allow(dead_code)] // each program needs a part

#[path = "../../bindings/rust/tokio/examples/tls.rs"]
mod example;
#[path = "../../bindings/rust/tokio/tests/over_tls/mod.rs"]
mod over_tls;

use openssl::ssl::{Ssl, SslAcceptor, SslConnector};
use over_tls::{accepted, Tls};
use rtr_wire::{Client, ClientOptions};
use rtr_wire_tokio::AsyncClient;
use std::error::Error;
use std::future::Future;
use std::io::{self, ErrorKind};
use std::net::ToSocketAddrs;
use std::path::Path;
use std::pin::Pin;
use std::time::Duration;
use tokio::net::{lookup_host, TcpStream};
use tokio_openssl::SslStream;

const NAME: &str = "localhost";

type Stream = SslStream<TcpStream>;
/// A handshake.
type Shaking = Pin<Box<dyn Future<Output = io::Result<Stream>> + Send>>;

fn connector(identity: &str) -> Result<SslConnector, Box<dyn Error>> {
    Ok(example::connector([Path::new(identity); 3])?)
}

fn acceptor(identity: &str) -> Result<SslAcceptor, Box<dyn Error>> {
    Ok(example::acceptor([Path::new(identity); 3])?)
}

/// Connects to the first address of the cache that answers.
fn connect(connector: &SslConnector, address: &str, time: Duration) -> io::Result<Tls> {
    let mut connected = Err(ErrorKind::NotFound.into());
    for address in address.to_socket_addrs()? {
        connected = connected.or_else(|_| over_tls::connect(connector, address, NAME, time));
    }
    connected
}

/// Returns a client in threads.
pub fn client(
    identity: &str,
    address: &str,
    options: ClientOptions,
) -> Result<Client, Box<dyn Error>> {
    let (connector, address) = (connector(identity)?, address.to_string());
    let dial = move |time| connect(&connector, &address, time);
    Ok(Client::over(options, dial))
}

/// Returns a client of tokio.
pub fn async_client(
    identity: &str,
    address: &str,
    options: ClientOptions,
) -> Result<AsyncClient<Stream>, Box<dyn Error>> {
    let (connector, address) = (connector(identity)?, address.to_string());
    Ok(AsyncClient::new(options, move || {
        let (connector, address) = (connector.clone(), address.clone());
        async move {
            let mut connected = Err(ErrorKind::NotFound.into());
            for address in lookup_host(address).await? {
                if connected.is_err() {
                    connected = TcpStream::connect(address).await;
                }
            }
            let mut ssl = connector.configure()?.into_ssl(NAME)?;
            ssl.set_connect_state();
            shaken(ssl, connected?).await
        }
    }))
}

/// Returns what takes the connections of a cache in threads.
pub fn taking(
    identity: &str,
) -> Result<impl Fn(std::net::TcpStream) -> io::Result<Tls> + Send, Box<dyn Error>> {
    let acceptor = acceptor(identity)?;
    Ok(move |stream| accepted(&acceptor, stream))
}

/// Returns what shakes hands with the routers of a cache of tokio.
pub fn shaking(identity: &str) -> Result<impl Fn(TcpStream) -> Shaking, Box<dyn Error>> {
    let acceptor = acceptor(identity)?;
    Ok(move |stream| -> Shaking {
        let ssl = Ssl::new(acceptor.context());
        Box::pin(async move {
            let mut ssl = ssl?;
            ssl.set_accept_state();
            shaken(ssl, stream).await
        })
    })
}

/// Shakes hands. A system doesn't interrupt that on a socket that doesn't block, but a test does,
/// and the crate tokio-openssl passes the error on.
async fn shaken(ssl: Ssl, stream: TcpStream) -> io::Result<Stream> {
    let mut stream = SslStream::new(ssl, stream)?;
    loop {
        let shaken = Pin::new(&mut stream).do_handshake().await;
        match shaken.map_err(openssl::ssl::Error::into_io_error) {
            Ok(()) => return Ok(stream),
            Err(Ok(error)) if error.kind() == ErrorKind::Interrupted => {}
            Err(Ok(error)) => return Err(error),
            Err(Err(error)) => return Err(io::Error::new(ErrorKind::Other, error)),
        }
    }
}
