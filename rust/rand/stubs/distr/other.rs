//! Stands in for a file of rand that was not delivered. Only its names are needed.

/// Not delivered; no value of it exists here.
#[derive(Clone, Copy, Debug)]
pub enum Alphabetic {}

/// Not delivered; no value of it exists here.
#[derive(Clone, Copy, Debug)]
pub enum Alphanumeric {}
