//! Stand-in for the ISO-TP transport: `error.rs` names its error, and nothing else of it is used.

#[derive(thiserror::Error, Debug, Clone)]
#[error("stand-in for the error of ISO-TP")]
pub struct Error;
