//! Tests of Wickerbell from outside. Everything here is written from document 01; nothing is taken from the proved code.
//!
//! - `reference`: a plain second implementation of records, walk, lent tables, program output and lasso test.
//! - `independent`: decisions of acceptance and of inclusion that share nothing with the walk.
//! - `library`: the proved library's two C functions.
//! - `lent`: the tables that a caller lends, filled with a pattern and guarded on both sides.
//! - `drawn`: random automata; `random`: the numbers behind them; `text`: how an automaton is written for a reader.
//! - `checks`: what is compared with what.

pub mod checks;
pub mod drawn;
pub mod independent;
pub mod lent;
pub mod library;
pub mod random;
pub mod reference;
pub mod text;
