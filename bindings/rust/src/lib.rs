//! Units of the RPKI to Router protocol ([RFC 6810], [RFC 8210]), of all eleven types, and
//! sequences of them, over the proved library `rtr_c`.
//!
//! The functions of the archive are proved to meet their contracts; this crate is tested.
//!
//! # A connection
//!
//! [`Reader`] reads units from anything that is [`std::io::Read`], one at a time, and [`Writer`]
//! writes them to anything that is [`std::io::Write`]. [`Reader::next_unit`] lends each unit, and
//! doesn't allocate:
//!
//! ```
//! use rtr_wire::{Reader, Unit};
//!
//! // A cache response, a prefix and an end of data (RFC 8210 sections 5.5, 5.6 and 5.8).
//! let connection: &[u8] = &[
//!     1, 3, 0x12, 0x34, 0, 0, 0, 8, //
//!     1, 4, 0, 0, 0, 0, 0, 20, 1, 23, 26, 0, 192, 0, 2, 0, 0, 1, 0, 15, //
//!     1, 7, 0x12, 0x34, 0, 0, 0, 24, 0, 0, 0, 5,
//!     0, 0, 0x0e, 0x10, 0, 0, 2, 0x58, 0, 0, 0x1c, 0x20,
//! ];
//! let mut reader = Reader::new(connection);
//! let mut prefixes = Vec::new();
//! while let Some(unit) = reader.next_unit()? {
//!     if let Unit::Ipv4Prefix(prefix) = unit {
//!         prefixes.push(format!("{}/{} AS{}", prefix.address, prefix.length, prefix.asn));
//!     }
//! }
//! assert_eq!(prefixes, ["192.0.2.0/23 AS65551"]);
//! # Ok::<(), rtr_wire::Error>(())
//! ```
//!
//! A [`Reader`] is also an iterator over units that own their bytes, and [`Reader::sequence`] is
//! one over the answer of a cache to a query: payload units up to an end of data.
//!
//! # Bytes in memory
//!
//! [`Units`] iterates over the units of a slice, [`Unit::first`] parses the first one, and
//! [`Unit::write`] writes one. [`normalise`], [`normalise_for`] and [`same_meaning`] take whole
//! sequences. None of these allocates.
//!
//! # Data and deltas
//!
//! [`Data`] are the data of a cache or a router, in canonical form. [`load_data`] loads a recording
//! or a list. [`Data::delta_to`] computes the answer to a serial query, [`Data::apply_in_order`]
//! applies the changes that a cache sends, and [`Data::apply`] changes that [`order`] brought into
//! canonical form. [`delta_into`], [`apply_in_order`], [`order_into`] and [`apply_into`] do the
//! same over slices, and allocate nothing.
//!
//! # Routes
//!
//! [`Data::validate`] reports whether a route is valid by the data ([RFC 6811]), and
//! [`Data::covering`] which VRPs cover it, and why each doesn't match. [`Tables`] does the same
//! over slices.
//!
//! # Sessions
//!
//! [`Client`] follows a cache, and [`Server`] is one, each in a thread, over TCP or any other
//! [`Socket`]; [`follow`] follows several caches by preference. [`Router`], [`Preferred`] and
//! [`Served`] are the same without sockets or a clock, for programs with their own loop; the crate
//! [`rtr-wire-tokio`](https://docs.rs/rtr-wire-tokio) has one for tokio.
//!
//! # Features
//!
//! `std`, on by default and for 64-bit Linux, has readers, writers, and clients and caches in
//! threads. Without it the crate is `no_std`, and `alloc` has units, data and changes that own their
//! bytes, [`Router`] and [`Preferred`].
//!
//! [RFC 6810]: https://www.rfc-editor.org/rfc/rfc6810
//! [RFC 6811]: https://www.rfc-editor.org/rfc/rfc6811
//! [RFC 8210]: https://www.rfc-editor.org/rfc/rfc8210
#![no_std]
// Without `std` some links of the page lead nowhere.
#![cfg_attr(not(feature = "std"), allow(rustdoc::broken_intra_doc_links))]
#![deny(missing_docs, unsafe_op_in_unsafe_fn)]
#![warn(clippy::pedantic)]

#[cfg(any(feature = "alloc", test))]
extern crate alloc;
#[cfg(any(feature = "std", test))]
extern crate std;

/// These are in `core` since Rust 1.81: without `std` this crate needs that version.
#[cfg(not(feature = "std"))]
use core::{error, net};
#[cfg(feature = "std")]
use std::{error, net};

#[cfg(all(
    feature = "std",
    not(all(target_os = "linux", target_pointer_width = "64"))
))]
compile_error!("the feature `std` needs 64-bit Linux: use default-features = false");

#[cfg(feature = "std")]
mod asking;
#[rustfmt::skip]
#[allow(clippy::pedantic)] // generated, with the comments of `rtr.h`
mod abi;
#[cfg(feature = "std")]
mod body;
#[cfg(feature = "std")]
mod cache;
#[cfg(feature = "std")]
mod cache_machine;
#[rustfmt::skip]
#[allow(clippy::pedantic)] // generated
mod calls;
#[cfg(feature = "alloc")]
mod canonical;
#[cfg(feature = "std")]
mod carrying;
#[cfg(feature = "alloc")]
mod changes;
#[cfg(feature = "alloc")]
mod checking;
#[cfg(feature = "std")]
mod client;
#[cfg(feature = "alloc")]
mod client_error;
#[cfg(feature = "std")]
mod connection;
mod data;
#[cfg(feature = "std")]
mod door;
mod faults;
#[cfg(feature = "std")]
mod follow;
mod group;
#[cfg(feature = "std")]
mod input;
mod iter;
mod kind;
#[cfg(feature = "alloc")]
mod lines;
#[cfg(feature = "alloc")]
mod link;
#[cfg(feature = "alloc")]
mod loading;
#[cfg(feature = "alloc")]
mod log;
#[cfg(feature = "alloc")]
mod options;
#[cfg(feature = "std")]
mod output;
#[cfg(feature = "alloc")]
mod owned_data;
#[cfg(feature = "alloc")]
mod preferred;
#[cfg(feature = "std")]
mod reader;
#[cfg(feature = "alloc")]
mod refusal;
#[cfg(feature = "alloc")]
mod router;
#[cfg(feature = "std")]
mod running;
#[cfg(feature = "std")]
mod saving;
mod sequence;
#[cfg(feature = "std")]
mod server;
#[cfg(feature = "std")]
mod server_error;
#[cfg(feature = "std")]
mod serving;
#[cfg(feature = "std")]
mod snapshot;
#[cfg(feature = "std")]
mod socket;
#[cfg(feature = "std")]
mod store;
mod sys;
#[cfg(feature = "std")]
mod timed;
mod units;
mod validation;
#[cfg(feature = "alloc")]
mod vrps;
#[cfg(feature = "std")]
mod waiting;
#[cfg(feature = "std")]
mod writer;

#[cfg(feature = "std")]
pub use cache::{Cache, Moment};
#[cfg(feature = "alloc")]
pub use changes::Changes;
#[cfg(feature = "alloc")]
pub use checking::{Checker, Finding};
#[cfg(feature = "std")]
pub use client::Client;
#[cfg(feature = "alloc")]
pub use client_error::{Breach, ClientError};
pub use data::{
    apply_in_order, apply_into, changes_between, delta_into, order_into, DataError, Place, Side,
};
#[cfg(feature = "std")]
pub use door::{Door, Entry};
pub use faults::{ErrorCode, Fault, PrefixRule};
#[cfg(feature = "std")]
pub use follow::{follow, follow_with};
#[cfg(feature = "alloc")]
pub use group::News;
pub use group::{Decision, Group, GroupSettings, Shown, TooManyMembers};
pub use iter::Units;
pub use kind::{Kind, UnknownKind};
#[cfg(feature = "alloc")]
pub use lines::{change_json, change_line, unit_json, unit_line};
#[cfg(feature = "alloc")]
pub use loading::{load_data, Loaded};
#[cfg(feature = "std")]
#[doc(hidden)]
pub use log::log_retried;
#[cfg(feature = "alloc")]
pub use log::{Log, LogFields, LogLevel};
#[cfg(feature = "alloc")]
pub use options::{ClientOptions, ServerOptions};
#[cfg(feature = "alloc")]
pub use owned_data::{order, Data};
#[cfg(feature = "alloc")]
pub use preferred::Preferred;
#[cfg(feature = "std")]
pub use reader::{Error, Reader, Sequence};
#[cfg(feature = "alloc")]
pub use refusal::Refusal;
#[cfg(feature = "alloc")]
pub use router::{Event, Router, Step};
pub use sequence::{normalise, normalise_for, same_meaning, NotCompared, Progress, Stopped};
#[cfg(feature = "std")]
pub use server::Server;
#[cfg(feature = "std")]
pub use server_error::{SaveError, ServerError, TimeRule, UpdateError};
#[cfg(feature = "std")]
pub use serving::{Served, ServedStep};
#[cfg(feature = "std")]
pub use socket::Socket;
#[cfg(feature = "alloc")]
pub use units::OwnedUnit;
pub use units::{
    compare_serials, unit_size, Aspa, CacheReset, CacheResponse, EndOfData, ErrorReport,
    Ipv4Prefix, Ipv6Prefix, Providers, ReportParts, ResetQuery, RouterKey, SerialNotify,
    SerialQuery, Timing, Unit, UnitRef,
};
pub use validation::{Covering, LengthError, Mismatch, Route, Tables, Validity, Vrp};
#[cfg(feature = "alloc")]
pub use vrps::{RoaPayload, RoaPayloadError};
#[cfg(feature = "std")]
pub use writer::Writer;
