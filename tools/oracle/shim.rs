//! A root for the files of subsetter that our port follows. It stands in for their own
//! roots, which also want files that are no part of that (glyf, head, hmtx and others).
//! Every other file is the published one, unchanged; the build lays them beside this one.

pub mod read;
pub mod write;

pub mod cff {
    pub mod argstack;
    pub mod charstring;
    pub mod index;
    pub mod number;
    pub mod operator;
    pub mod subroutines;
}

/// The cases of lib.rs's `Error` that these files answer with.
#[derive(Debug, Copy, Clone, Eq, PartialEq)]
pub enum Error {
    Unimplemented,
    OverflowError,
    CFFError,
}

pub type Result<T> = std::result::Result<T, Error>;
