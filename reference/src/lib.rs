//! An independent reading of document 01 and of the requests of document 02 that have landed (A1 to
//! A3 and A5 to A8): the hub's snapshot store, its log, its rows, and the tools that check them.
//!
//! Each module has one topic. `hub` answers records over the `store`; `steps`, `flush` and `marks`
//! are what its workers do. `order` is the checker of demand 3 and shares no code with them;
//! `listing` and `timeline` show the order that it finds.

pub mod answer;
pub mod bcd;
pub mod buffers;
pub mod census;
pub mod coverage;
pub mod explore;
pub mod fault;
mod flush;
mod follow;
pub mod generate;
pub mod ghost;
pub mod hub;
pub mod invariant;
pub mod list;
pub mod listing;
pub mod lists;
pub mod log;
pub mod markdown;
pub mod marks;
mod observe;
pub mod order;
pub mod plot;
pub mod pool;
mod profile;
pub mod reading;
pub mod record;
pub mod rights;
mod rights_asked;
pub mod row;
pub mod space;
mod steps;
pub mod store;
pub mod tables;
pub mod text;
pub mod timeline;
pub mod workload;

pub use answer::{Answer, Refusal};
pub use hub::Hub;
pub use reading::Reading;
pub use record::Record;
