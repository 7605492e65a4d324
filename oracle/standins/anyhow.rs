//! Stand-in for the crate `anyhow`: the two names that overlapping.rs uses.
use std::fmt::Display;

#[derive(Debug)]
pub struct Error(pub String);

pub type Result<T, E = Error> = core::result::Result<T, E>;

pub trait Context<T> {
    fn context<C: Display>(self, context: C) -> Result<T>;
}

impl<T> Context<T> for Result<T> {
    fn context<C: Display>(self, context: C) -> Result<T> {
        self.map_err(|e| Error(format!("{context}: {}", e.0)))
    }
}
