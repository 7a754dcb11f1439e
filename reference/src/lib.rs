//! Independent second implementation of the protocol rules, which the proved product is compared with.

pub mod block;
pub mod board;
pub mod calendar;
pub mod call;
pub mod capture;
pub mod compare;
pub mod edges;
pub mod generate;
pub mod hex;
pub mod listing;
pub mod packet;
pub mod program;
pub mod random;
pub mod reader;
pub mod record;
pub mod refusal;
pub mod replay;
pub mod rows;
pub mod schedule;
pub mod shrink;
pub mod summary;
pub mod table;
pub mod tally;
pub mod tool;
pub mod units;
