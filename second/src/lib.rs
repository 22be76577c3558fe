//! The independent second program: a plain model of the access controls
//! coordinator, written from the paper alone, so that the proved program has
//! a judge that shares no line with it.
//!
//! Reading order, each module taking names from those before it alone: `bytes`
//! and `lines` (what everything is written in), `state` and `setup` (the tables),
//! `ground` and `fault` (words for what stands and what fails), `rows` (what an
//! initiator reaches), `pages`, `manage` and `commands` (what changes the tables),
//! `report` (the bytes), `coordinator` (the order of tests), `journal` (the text),
//! `replay` and `table`, on which `audit` and `acl` stand (what a person reads),
//! then `make`, `cover` and `bench`, which only serve the tests.

pub mod acl;
pub mod audit;
pub mod bench;
pub mod bytes;
pub mod commands;
pub mod coordinator;
pub mod cover;
pub mod fault;
pub mod ground;
pub mod journal;
pub mod lines;
pub mod make;
pub mod manage;
pub mod pages;
pub mod replay;
pub mod report;
pub mod rows;
pub mod setup;
pub mod state;
pub mod table;
