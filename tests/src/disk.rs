//! Tests of the store over the disk, in a folder of their own below the system's temporary folder.

mod blocks;
mod cases;
mod failing;
mod parts;
mod reads;
mod steps;
mod writes;
