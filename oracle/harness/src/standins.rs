//! Stand-ins for modules of libadb that are not among SEEDS and that
//! `error.rs`, `session.rs` and `connection.rs` name. None of them has
//! behaviour in the connection core.

macro_rules! empty_error {
    ($name:ident) => {
        /// Never made by the connection core.
        #[derive(Debug)]
        pub enum $name {}

        impl core::fmt::Display for $name {
            fn fmt(&self, _: &mut core::fmt::Formatter<'_>) -> core::fmt::Result {
                match *self {}
            }
        }

        impl core::error::Error for $name {}
    };
}

pub mod logcat {
    empty_error!(LogcatError);
}

pub mod reverse {
    empty_error!(ReverseError);
}

pub mod sync {
    empty_error!(SyncError);
}

pub mod protobuf {
    empty_error!(DecodeError);
}

pub mod transport {
    /// libadb's `transport.rs` pulls in `split`, `tcp` and `uri`, which
    /// are missing; the core needs this trait of it alone.
    pub trait ReadCancelSafety {
        fn read_cancel_safe(&self) -> bool;
    }
}
