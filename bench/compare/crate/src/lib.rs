//! quick-junit 0.8.0: its four files, which stand in ../quick-junit unchanged. Only this file is ours: it joins the four.
#![allow(unexpected_cfgs, dead_code, mismatched_lifetime_syntaxes)]

include!(concat!(env!("OUT_DIR"), "/joined.rs"));

pub use errors::*;
pub use report::*;
