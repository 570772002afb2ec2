//! Inputs that collide often: small pools, and rows and commands drawn from them.

pub mod commands;
pub mod damage;
pub mod doubles;
pub mod events;
pub mod fields;
pub mod images;
pub mod random;
pub mod ranges;
pub mod regions;
pub mod rows;
pub mod transactions;
pub mod world;
