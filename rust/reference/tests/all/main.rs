//! The reference on made bytes.

mod drawn;
mod examples;
mod judge;
mod long;
mod pieces;
mod total;
