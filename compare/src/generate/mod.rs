//! Inputs by seed, made without any of the two sides: commands, discs, the files of discs, and damaged copies.
pub mod commands;
pub mod damage;
pub mod discs;
pub mod files;
