//! An independent implementation of documents 01 and 02, and what compares it with the library.
//!
//! `reference` is the independent implementation, `sheets` builds sheets, plan files and questions about cost tables, `compare` runs both
//! implementations on equal copies and compares all that they leave.

#![forbid(unsafe_code)]

pub mod compare;
pub mod reference;
pub mod sheets;
