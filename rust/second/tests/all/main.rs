//! The second program against documents 01 and 02.

mod notation;

mod chance;
mod matrix_text;
mod order;
mod readings;
mod scenario;
mod schedules;
mod tiny;
mod worked;
