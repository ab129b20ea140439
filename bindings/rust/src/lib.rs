//! JSONPath queries (RFC 9535) over JSON documents, by the proved engine jp.
//!
//! ```
//! use jsonpath_jp::Query;
//!
//! // RFC 9535, Figure 1.
//! let store = br#"{"store": {
//!     "book": [
//!         {"category": "reference", "author": "Nigel Rees", "title": "Sayings of the Century", "price": 8.95},
//!         {"category": "fiction", "author": "Evelyn Waugh", "title": "Sword of Honour", "price": 12.99},
//!         {"category": "fiction", "author": "Herman Melville", "title": "Moby Dick",
//!          "isbn": "0-553-21311-3", "price": 8.99},
//!         {"category": "fiction", "author": "J. R. R. Tolkien", "title": "The Lord of the Rings",
//!          "isbn": "0-395-19395-8", "price": 22.99}
//!     ],
//!     "bicycle": {"color": "red", "price": 399}
//! }}"#;
//! let nodes = Query::parse("$..book[?@.price<10].title")?.find(store)?;
//! let values: Vec<_> = nodes.iter().map(|node| node.value()).collect();
//! assert_eq!(values, ["\"Sayings of the Century\"", "\"Moby Dick\""]);
//! assert_eq!(nodes.first().map(|node| node.path()), Some("$['store']['book'][0]['title']"));
//! # Ok::<(), jsonpath_jp::Error>(())
//! ```
//!
//! A document is the bytes of a JSON text, and a node's value is a compact JSON text, so that any JSON crate
//! can be used beside this one. Numbers are exact decimals, of which none is rounded; [`Numbers::Whole`] asks for whole
//! ones of 64 bits.
//!
//! What is asked of again and again can be kept: a [`Query`] is read once, and so is a [`Document`].
//!
//! ```
//! use jsonpath_jp::{Document, Query};
//!
//! let document = Document::parse(br#"{"a":[1,2,3]}"#)?;
//! assert!(Query::parse("$.a[?@ > 2]")?.find_in(&document)?.iter().eq(Query::parse("$.a[2]")?.find_in(&document)?.iter()));
//! # Ok::<(), jsonpath_jp::Error>(())
//! ```
//!
//! A query that is refused tells why:
//!
//! ```
//! use jsonpath_jp::{Error, Query, QueryKind};
//!
//! let Err(Error::Query(fault)) = Query::parse("$[?@.a = 1]") else { panic!("it is refused") };
//! assert_eq!(fault.kind(), QueryKind::Syntax);
//! assert_eq!(fault.place(), 8);
//! println!("{}", fault.sentence());
//! assert_eq!(fault.suggestion(), Some("$[?@.a == 1]"));
//! ```
//!
//! # Threads and stack
//!
//! All types are [`Send`] and [`Sync`]. Calls may be made at once from any threads; those that use one
//! [`Document`], or one [`Query`] over documents that are kept, take turns. A call that needs more stack than
//! its thread has left is made on a thread of its own.
//!
//! # What is proved
//!
//! The engine: that it accepts exactly the queries and documents that its definitions say, and that its answers
//! are the nodelists of RFC 9535. This crate, which calls it through C, is only tested.

#![deny(
    missing_docs,
    unsafe_code,
    unsafe_op_in_unsafe_fn,
    clippy::undocumented_unsafe_blocks
)]

mod decimal;
mod document;
mod error;
mod iter;
mod nodes;
mod numbers;
mod profile;
mod queries;
mod query;
#[allow(unsafe_code)]
mod raw;

pub use document::Document;
pub use error::{DocumentError, Error, QueryError};
pub use iter::{FindIter, OwnedNode};
pub use nodes::{Iter, Node, Nodes};
pub use numbers::{DocumentKind, QueryKind};
pub use profile::{Numbers, Profile};
pub use queries::Queries;
pub use query::Query;

/// The version of the engine, as `0.1.0`.
pub fn version() -> String {
    let number = raw::version();
    format!("{}.{}.{}", number >> 16, number >> 8 & 255, number & 255)
}
