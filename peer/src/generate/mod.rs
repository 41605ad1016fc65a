//! Accepted plans by construction, of many shapes.
//!
//! Tasks come in transactions: tasks of one period, joined by messages where
//! their nodes differ and by buffers where they do not. Each job is placed
//! where its core is free once what it waits for has arrived; windows are
//! laid around the pieces afterwards, chains along the messages, and rows are
//! shuffled last, those with a start apart, which are put in order.

mod chains;
mod draft;
mod entries;
mod shapes;
mod timeline;
mod windows;

pub use entries::{longest_lane, most_entries};
pub use shapes::{
    accepted, bare, busy_core, busy_links, diamond, full, kept_core, large, medium, rich,
    shared_buffer, small, small_rich, tiny, unit_periods,
};
pub use windows::cut_window;

use crate::image::Plan;
use crate::rng::Rng;

/// A way to make accepted plans.
pub type Shape = fn(&mut Rng) -> Plan;

/// Every shape by its name.
pub const SHAPES: [(&str, Shape); 15] = [
    ("bare", bare),
    ("units", unit_periods),
    ("tiny", tiny),
    ("shared", shared_buffer),
    ("small", small),
    ("medium", medium),
    ("rich", rich),
    ("large", large),
    ("busy", busy_core),
    ("kept", kept_core),
    ("links", busy_links),
    ("diamond", diamond),
    ("entries", most_entries),
    ("lane", longest_lane),
    ("full", full),
];
