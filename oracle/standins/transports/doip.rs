//! Stand-in for the DoIP transport: `error.rs` names its error, and nothing else of it is used.

#[derive(thiserror::Error, Debug, Clone)]
#[error("stand-in for the error of DoIP")]
pub struct Error;
