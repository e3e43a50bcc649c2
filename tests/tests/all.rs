//! The programs held against the second program, one program: a module for each topic.

mod agreement;
mod each;
mod marks;
mod none;
mod rights;
mod row;
mod rows;
mod status;
mod streams;
mod totals;
mod waiting;
