//! The C interface of the static library `lubiksan`, as `lubiksan.h` declares it: the calls, and the numbers that go in and come out.
//! Names are those of the header, and a test holds both against each other and against the library's own constants.
//!
//! A buffer is an address and a length in elements. Every address is valid and aligned for its type, also for a length of 0, and
//! the buffers of a call and what it stores do not overlap; any bytes and numbers are taken. `lubiksan.h` says what each call does.
//! The crate `lubiksan` is the safe way to these calls.

#![no_std]
#![deny(missing_docs)]

mod calls;
mod limits;
mod returned;
mod rows;
mod tape;

pub use calls::*;
pub use limits::*;
pub use returned::*;
pub use rows::*;
pub use tape::*;
