//! Second implementation of document 01, and of items 1 to 7 of document 02,
//! written from their text alone, to be run beside the first one. It goes for
//! the obvious way everywhere: plain vectors, ordered maps, inverses by Fermat,
//! Gaussian elimination.
//!
//! How the modules follow document 01:
//! - `field`: "Plan, sets and the field", elements modulo 65521
//! - `refusal`: the refusals, each with its number
//! - `scheme`: the plan with its bounds on figures (document 02, items 2 and 3),
//!   usable sets, and "Keys and messages" as formulas
//! - `client`: key maker and airfield end, with their refusals in order,
//!   random lists from raw bytes (document 02, item 1), where a reply lies in a
//!   key (document 02, item 4), and keys that belong to one round (document 02,
//!   item 7)
//! - `reading`: totals and signed figures as whole numbers (document 02, item 3)
//! - `service`: the pooling service, with its refusals in order, repeats of
//!   elements taken quietly (document 02, item 5), and one garbled reply set
//!   aside (document 02, item 6)
//! - `stream`: "The stream", bytes to records, records to printed lines
//! - `text`: records as lines of text, for people
//! - `random`: a small generator of numbers from a seed
//! - `material`: streams and cases for tests, made from a seed
//!
//! The formulas are those of section 4.3 of Zhao and Sun for large fields,
//! with the matrix that document 01 fixes: rows at k, columns at -j.

pub mod client;
pub mod field;
pub mod material;
pub mod random;
pub mod reading;
pub mod refusal;
pub mod scheme;
pub mod service;
pub mod stream;
pub mod text;
