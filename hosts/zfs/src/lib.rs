//! `zfs` and `zpool` over Yuzgont's pools: a daemon that keeps the pools, and a client that stands for both programs.
//!
//! It is a host of the library, and none of it is proved. README.md beside it says what it does and what it can't.

pub mod client;
pub mod daemon;
pub mod protocol;

mod call;
mod dataset;
mod dependents;
mod failure;
mod host;
mod layer;
mod mounting;
mod name;
mod options;
mod output;
mod property;
mod reading;
mod removal;
mod setting;
mod size;
mod snapshots;
mod stream;
mod sys;
mod usage;
mod world;
mod zfs;
mod zpool;
