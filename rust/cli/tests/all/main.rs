//! The built command, called as users call it: statuses, both streams, files.

mod batch;
mod boxes;
mod check;
mod explain;
mod folder;
mod large;
mod pack;
mod report;
mod run;
mod stream;
mod streams;
