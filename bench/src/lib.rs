//! What the measurements share: the tables and the report that are measured, plain code to measure against, and how calls are timed.

pub mod plain;
pub mod report;
pub mod tables;
pub mod time;
