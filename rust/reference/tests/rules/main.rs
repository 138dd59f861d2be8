//! The rules of document 01, by its sections and by the readings of it, and the
//! requests of document 02 that are made.

mod boards;
mod claim;
mod common;
mod feeds;
mod grounds;
mod malformed;
mod packing;
mod paper;
mod pictures;
mod pixels;
mod stipples;
mod tiles;
mod visits;
