//! A plain second implementation of document 01, written sentence by sentence and for no speed.

pub mod accept;
pub mod decide;
pub mod lasso;
pub mod program;
pub mod records;
pub mod walk;
