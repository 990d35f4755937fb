// Stands for src/lib.rs: only the modules that are built here.
pub mod data_structures;
pub mod helpers;
pub mod voxel;
