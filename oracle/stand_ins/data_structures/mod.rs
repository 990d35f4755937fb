// Stands for data_structures/mod.rs.
pub mod bitset;
