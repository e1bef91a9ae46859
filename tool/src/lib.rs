//! The lamp planner for Rust, and what its command line is made of.
//!
//! `calls` is the safe binding: every call of include/lamp.h as a function over slices. What a call answers is proved. All else in
//! this crate is tested and not proved: it reads and writes texts, says where a refusal comes from, and draws.
pub mod calls;
pub mod catalogue;
pub mod commands;
pub mod explanation;
pub mod faults;
pub mod folder;
pub mod help;
pub mod input;
pub mod listing;
pub mod markup;
pub mod numbers;
pub mod output;
pub mod page;
pub mod part;
pub mod picture;
pub mod planning;
pub mod practice;
pub mod refusal;
pub mod sheet_text;
pub mod show;
pub mod show_text;
pub mod typed;
pub mod words;
