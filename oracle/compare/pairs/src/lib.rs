//! The pair program of document 01, written from its text and apart from the port: lines, tokens,
//! reader and writer are made here, what two sorts are to each other is asked of the excerpt of
//! merc. And what is needed to compare another program with it.

pub mod answer;
pub mod fault;
pub mod generate;
pub mod hand;
pub mod lines;
pub mod program;
pub mod read;
pub mod run;
pub mod shrink;
pub mod sort;
pub mod token;
