//! A ticket in words, record by record, from what the reference reads in it. Nothing here is proved.

pub mod account;
pub mod broken;
pub mod fields;
pub mod json;
pub mod layout;
pub mod limits;
pub mod malformed;
pub mod reading;
pub mod refusals;
pub mod standing;
pub mod steps;
pub mod summary;
pub mod text;
pub mod unfit;
pub mod unsettled;
pub mod verdict;
pub mod words;
