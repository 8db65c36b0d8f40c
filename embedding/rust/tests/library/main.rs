//! The wrapper and, through it, the proved library: one program, as each takes
//! a link of its own.

mod books;
mod building;
mod days;
mod figures;
mod grounds;
mod layout;
mod lines;
mod losses;
mod mail;
mod netting;
mod netting_refusals;
mod records;
mod sample;
mod sovereigns;
mod sums;
mod swaps;
mod tables_2023;
mod threads;
