// Stands for voxel/leaf_node/mod.rs: the leaf's fields, as its three given files use them, and its slot rule.
mod csg;
mod flood_fill;
mod tree_node;

use super::*;
use crate::data_structures::bitset::BitArray;

#[derive(Debug)]
pub struct LeafNode<
    TValue: Value,
    const BRANCHING: usize,
    const BRANCHING_TOTAL: usize,
    const SIZE: usize,
    const BIT_SIZE: usize,
> {
    origin: Vec3i,
    value_mask: BitArray<SIZE, BIT_SIZE>,
    values: [TValue; SIZE],
}

impl<TValue: Value, const BRANCHING: usize, const BRANCHING_TOTAL: usize, const SIZE: usize, const BIT_SIZE: usize>
    LeafNode<TValue, BRANCHING, BRANCHING_TOTAL, SIZE, BIT_SIZE>
{
    /// 01, geometry: mask each coordinate to the level's total; a leaf has no child total to shift by.
    fn offset(index: &Vec3i) -> usize {
        let mask = (1 << BRANCHING_TOTAL) - 1;
        let (x, y, z) = (index.x & mask, index.y & mask, index.z & mask);

        ((x << (2 * BRANCHING)) + (y << BRANCHING) + z) as usize
    }
}
