//! Clients and caches of the RPKI to Router protocol (RFC 6810, RFC 8210) for tokio, over anything
//! that is [`AsyncRead`](tokio::io::AsyncRead) and [`AsyncWrite`](tokio::io::AsyncWrite): TCP, TLS,
//! or a channel of SSH.
//!
//! [`AsyncClient`] follows a cache, [`AsyncGroup`] several by preference; [`AsyncServer`] is one.
//! They carry bytes for [`rtr_wire::Router`] and [`rtr_wire::Served`], as the clients and caches in
//! threads of [`rtr_wire`] do, and decide nothing themselves.
//!
//! ```
//! use rtr_wire::{ClientOptions, Data, ServerOptions};
//! use rtr_wire_tokio::{AsyncClient, AsyncServer};
//! use tokio::net::TcpListener;
//!
//! # #[tokio::main(flavor = "current_thread")]
//! # async fn main() -> Result<(), Box<dyn std::error::Error>> {
//! let listener = TcpListener::bind("127.0.0.1:0").await?;
//! let address = listener.local_addr()?.to_string();
//! let server = AsyncServer::new(ServerOptions::default());
//! let data = Data::new(1, 4660, 1, None)?;
//! server.update(data.clone())?;
//! let serving = server.clone();
//! tokio::spawn(async move { serving.serve(listener).await });
//!
//! let mut client = AsyncClient::tcp(address, ClientOptions::default());
//! assert_eq!(client.fetch().await?, data);
//! # Ok(())
//! # }
//! ```
#![deny(missing_docs, unsafe_code)]
#![warn(clippy::pedantic)]

mod carrying;
mod client;
mod closing;
mod group;
mod repeated;
mod running;
mod server;
mod timer;

pub use client::AsyncClient;
pub use group::AsyncGroup;
pub use server::AsyncServer;
