//! The planner for star networks, written a second time from documents 01 and 02 and by other means
//! than the proved library: wide integers, sums taken anew, explicit sets, and a flow over the whole
//! star where the library withdraws at the critical pairs. It is meant to be compared with, so it
//! is plain before it is fast.
//!
//! Read in this order: document 01's words, the two rules, schedules, the entries, scenario files.

pub mod limits;
pub mod matrix;

pub mod fair;
pub mod flow;
pub mod fraction;
pub mod least;

pub mod schedule;

pub mod judge;
pub mod matrix_text;
pub mod plan;
pub mod refusal;
pub mod run;

pub mod scenario;
pub mod scenario_text;

pub mod inputs;
