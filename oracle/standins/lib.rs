//! Stand-in for the crate root and for what `error.rs` names but the UDS client never uses.
//! The files of the original stand beside it, unchanged.

pub mod error;
mod shared;
pub mod transports;

pub mod protocols {
    #[macro_use]
    mod macros;
    pub mod uds;

    pub mod ccp {
        #[derive(thiserror::Error, Debug, Clone)]
        #[error("stand-in for the error of CCP")]
        pub struct Error;
    }

    pub mod xcp {
        #[derive(thiserror::Error, Debug, Clone)]
        #[error("stand-in for the error of XCP")]
        pub struct Error;

        pub mod transport {
            #[derive(thiserror::Error, Debug, Clone)]
            #[error("stand-in for the error of XCP's transport")]
            pub struct Error;
        }
    }
}

pub mod can {
    pub mod bitrate {
        #[derive(thiserror::Error, Debug, Clone)]
        #[error("stand-in for the error of a bitrate")]
        pub struct BitrateError;
    }
}

pub use error::Error;
pub use tokio_stream::{Stream, StreamExt};
pub use transports::Transport;

pub type Result<T> = std::result::Result<T, Error>;
