//! What `seccomp_audit audit` does, written plainly and without proofs.
//! It is for measuring and for finding mistakes: no answer of `seccomp_audit` rests on it.

mod arena;
mod excluded;
mod explore;
mod facts;
mod fault;
mod learning;
mod name;
mod nodes;
mod piece;
mod policy;
mod program;
mod report;
mod running;
mod shared;
mod splitting;
mod sweep;
mod toml;
mod worker;

pub mod command_line;
