// Stands for the helpers: integer vectors (of the crate nalgebra in the original) and the type `OneOf`.

pub mod aliases {
    use std::ops::{Add, Index, IndexMut};

    #[derive(Debug, Clone, Copy, PartialEq, Eq)]
    pub struct Vec3<T> {
        pub x: T,
        pub y: T,
        pub z: T,
    }

    /// utils.rs makes these from `isize`.
    pub type Vec3i = Vec3<isize>;
    pub type Vec3u = Vec3<usize>;

    impl<T> Vec3<T> {
        pub const fn new(x: T, y: T, z: T) -> Self {
            Self { x, y, z }
        }
    }

    impl Vec3u {
        pub fn cast(self) -> Vec3i {
            Vec3i::new(self.x as isize, self.y as isize, self.z as isize)
        }
    }

    impl Add for Vec3i {
        type Output = Self;

        fn add(self, other: Self) -> Self {
            Self::new(self.x + other.x, self.y + other.y, self.z + other.z)
        }
    }

    impl<T> Index<usize> for Vec3<T> {
        type Output = T;

        fn index(&self, axis: usize) -> &T {
            [&self.x, &self.y, &self.z][axis]
        }
    }

    impl<T> IndexMut<usize> for Vec3<T> {
        fn index_mut(&mut self, axis: usize) -> &mut T {
            match axis {
                0 => &mut self.x,
                1 => &mut self.y,
                2 => &mut self.z,
                _ => panic!("a vector has three axes"),
            }
        }
    }
}

pub mod one_of {
    pub enum OneOf<T1, T2> {
        T1(T1),
        T2(T2),
    }
}
