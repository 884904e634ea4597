//! The modules of this folder that are compared.

pub mod actors;
pub mod machine;
pub mod scheme;
pub mod types;
