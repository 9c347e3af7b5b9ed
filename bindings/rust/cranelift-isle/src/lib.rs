//! Takes the place of the crate `cranelift-isle` in a build script.
//!
//! It has the calls of the original that a build script makes, with their names and signatures: [`compile::from_files`],
//! [`codegen::CodegenOptions`] and [`error::Errors`]. The compiler behind them is that of `isle-proved`. A project uses it by
//!
//! ```toml
//! [patch.crates-io]
//! cranelift-isle = { path = "joshuapool/bindings/rust/cranelift-isle" }
//! ```
//!
//! It doesn't have the original's trees, environments and reader.

pub mod codegen;
pub mod compile;
pub mod error;
mod json;
