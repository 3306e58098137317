//! The graph side of mx20022-codegen (Apache-2.0): lower.rs and types.rs stand unchanged.

#[rustfmt::skip]
pub mod lower;
#[rustfmt::skip]
pub mod types;
