// Stands for voxel/mod.rs: the trait declarations that the given files implement, the sign traits and `far`.
#[allow(dead_code)] // its functions for making such types as `Top` go unused here
mod internal_node;
mod leaf_node;
pub mod utils;

use crate::helpers::aliases::Vec3i;
use internal_node::InternalNode;
use leaf_node::LeafNode;
use std::ops::Neg; // internal_node/csg.rs takes it from here

/// 01, geometry: the three levels of a grid of 128 voxels a side. The last parameter asks for no threads.
type Top = InternalNode<f32, Middle, 3, 7, 512, 8, false>;
type Middle = InternalNode<f32, Leaf, 2, 4, 64, 1, false>;
type Leaf = LeafNode<f32, 2, 2, 64, 1>;

/// All that a node of any level can do. The given files keep the node's type to this module, so the ways out are
/// the functions below.
pub trait Grid: FloodFill<Value = f32> + Csg {}

impl<T: FloodFill<Value = f32> + Csg> Grid for T {}

pub fn top() -> Box<impl Grid> {
    Top::empty(Vec3i::new(0, 0, 0))
}

pub fn middle() -> Box<impl Grid> {
    Middle::empty(Vec3i::new(0, 0, 0))
}

pub fn leaf() -> Box<impl Grid> {
    Leaf::empty(Vec3i::new(0, 0, 0))
}

/// A leaf of 8 slots, whose mask has unused bits.
pub fn leaf_of_eight() -> Box<impl Grid> {
    LeafNode::<f32, 1, 1, 8, 1>::empty(Vec3i::new(0, 0, 0))
}

pub trait Value: Copy + Default + PartialEq {}

impl Value for f32 {}

#[derive(Debug, Clone, Copy, PartialEq, Eq)]
pub enum Sign {
    Positive,
    Negative,
}

pub trait Signed: Value + PartialOrd {
    fn sign(&self) -> Sign;
    fn set_sign(&mut self, sign: Sign);
    fn far() -> Self;
}

impl Signed for f32 {
    /// 01: the sign is the sign bit, so -0 is negative.
    fn sign(&self) -> Sign {
        if self.is_sign_negative() {
            Sign::Negative
        } else {
            Sign::Positive
        }
    }

    fn set_sign(&mut self, sign: Sign) {
        *self = match sign {
            Sign::Positive => self.abs(),
            Sign::Negative => -self.abs(),
        };
    }

    /// 01: the largest finite binary32.
    fn far() -> Self {
        f32::MAX
    }
}

pub trait TreeNode: Sized {
    const BRANCHING: usize;
    const BRANCHING_TOTAL: usize;
    const SIZE: usize;
    const IS_LEAF: bool;

    type Value: Value;
    type Child: TreeNode;
    type Leaf: TreeNode<Value = Self::Value>;
    type As<TNewValue: Value>: TreeNode<Value = TNewValue>;

    fn at(&self, index: &Vec3i) -> Option<&Self::Value>;
    fn at_mut(&mut self, index: &Vec3i) -> Option<&mut Self::Value>;
    fn insert(&mut self, index: &Vec3i, value: Self::Value);
    fn remove(&mut self, index: &Vec3i);
    fn empty(origin: Vec3i) -> Box<Self>;
    fn is_empty(&self) -> bool;
    fn origin(&self) -> Vec3i;
    fn fill(&mut self, value: Self::Value);
    fn clear(&mut self);
    fn clone_map<TNewValue, TMap>(&self, map: &TMap) -> Box<Self::As<TNewValue>>
    where
        TNewValue: Value,
        TMap: Fn(Self::Value) -> TNewValue;
    fn clone(&self) -> Box<Self>;
    fn visit_leafs_par<T: ParVisitor<Self::Leaf>>(&self, visitor: &T);
    fn visit_leafs<T: Visitor<Self::Leaf>>(&self, visitor: &mut T);
    fn visit_values_mut<T: ValueVisitorMut<Self::Value>>(&mut self, visitor: &mut T);
    fn leaf_at(&self, index: &Vec3i) -> Option<&Self::Leaf>;
    fn take_leaf_at(&mut self, index: &Vec3i) -> Option<Box<Self::Leaf>>;
    fn insert_leaf_at(&mut self, leaf: Box<Self::Leaf>);
    fn remove_empty_branches(&mut self);
    fn remove_if<TPred>(&mut self, pred: TPred)
    where
        TPred: Fn(&Self::Value) -> bool + Copy;

    /// 01, geometry: voxels a side.
    fn resolution() -> usize {
        1 << Self::BRANCHING_TOTAL
    }
}

pub trait FloodFill: TreeNode {
    fn flood_fill(&mut self);
    fn fill_with_sign(&mut self, sign: Sign);
    fn first_value_sign(&self) -> Sign;
    fn last_value_sign(&self) -> Sign;
    fn sign_at(&self, index: &Vec3i) -> Sign;
}

pub trait Csg: TreeNode {
    fn union(&mut self, other: Box<Self>);
    fn subtract(&mut self, other: Box<Self>);
    fn intersect(&mut self, other: Box<Self>);
    fn flip_signs(&mut self);
}

// The rest serves the visitors, which are left out of the port but stand in the given files.

pub struct Tile<TValue> {
    pub origin: Vec3i,
    pub size: usize,
    pub value: TValue,
}

pub trait Visitor<TLeaf: TreeNode> {
    fn tile(&mut self, tile: Tile<TLeaf::Value>);
    fn dense(&mut self, leaf: &TLeaf);
}

pub trait ParVisitor<TLeaf: TreeNode> {
    fn tile(&self, tile: Tile<TLeaf::Value>);
    fn dense(&self, leaf: &TLeaf);
}

pub trait ValueVisitorMut<TValue> {
    fn value(&mut self, value: &mut TValue);
}

/// The two calls of the crate rayon that internal_node/tree_node.rs makes, on one thread.
mod rayon {
    pub mod prelude {
        pub trait OneThread: Iterator + Sized {
            fn par_bridge(self) -> Self {
                self
            }

            fn into_par_iter(self) -> Self {
                self
            }
        }

        impl<T: Iterator> OneThread for T {}
    }
}
