//! Document 01 written a second time, with document 02's changes, from their sentences alone:
//! cells, hosts, run files and their listings, the wrong builds behind switches, and seeded run
//! files.

pub mod agreement;
pub mod breach;
pub mod builds;
pub mod cell;
pub mod compare;
pub mod coverage;
pub mod damage;
pub mod directed;
pub mod driver;
pub mod generate;
pub mod host;
pub mod listing;
pub mod measure;
pub mod message;
pub mod past;
pub mod random;
pub mod record;
pub mod refusal;
pub mod releases;
pub mod turns;
pub mod wrong;
