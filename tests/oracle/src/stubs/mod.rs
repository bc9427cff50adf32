//! What the five files need and is not among them. None of it holds arithmetic of the decoder.
#![allow(dead_code)]

pub mod bitreader;
pub mod core;
pub mod tables;
