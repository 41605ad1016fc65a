//! A second implementation of the tunnel plan checker, its dispatch tables
//! and their stepping, written from the papers alone. It is meant to be run
//! beside the product's own code; see README.md for the readings it took.

mod answer;
mod arguments;
mod arrivals;
pub mod boundary;
mod charges;
mod check;
mod dispatch;
pub mod drafts;
mod ended;
mod faults;
mod gates;
mod gave;
pub mod generate;
pub mod guests;
pub mod harness;
mod hex;
mod histogram;
pub mod image;
mod intervals;
mod jobs;
mod join;
pub mod joins;
#[cfg(rd_lib)]
pub mod library;
mod line;
pub mod lines;
pub mod modes;
pub mod mutate;
pub mod naive;
pub mod order;
mod paths;
mod questions;
mod report;
mod rng;
mod routes;
pub mod simulate;
mod table;
pub mod texts;
pub mod timer;
pub mod timers;

pub use answer::Answer;
pub use arguments::{arguments, numbers};
pub use arrivals::arrivals;
pub use check::check;
pub use dispatch::{start, step, step_all, State};
pub use ended::ended;
pub use gates::{gate_lists, gates};
pub use histogram::Histogram;
pub use image::Plan;
pub use join::join;
pub use line::{kind, line, LONGEST_LINE};
pub use questions::{asked_before, QUESTIONS};
pub use report::report;
pub use rng::Rng;
pub use table::{build, lanes, tables, Entry};
