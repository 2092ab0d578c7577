//! Stand-in for `bumpalo`: memory that lives as long as its `Bump`, freed at once.
//!
//! Each slice is a block of its own. As with the crate that it stands for, what is put into a slice is never dropped.

use std::{
    alloc::{Layout, dealloc},
    cell::RefCell,
    fmt,
};

pub struct Bump {
    blocks: RefCell<std::vec::Vec<(*mut u8, Layout)>>,
}

impl Bump {
    #[allow(clippy::new_without_default)]
    pub fn new() -> Self {
        Bump {
            blocks: RefCell::new(std::vec::Vec::new()),
        }
    }

    pub fn reset(&mut self) {
        for (block, layout) in self.blocks.get_mut().drain(..) {
            // The block came from a box of this layout, and no slice of it outlives the borrow of this Bump.
            unsafe { dealloc(block, layout) };
        }
    }

    #[allow(clippy::mut_from_ref)]
    fn keep<T>(&self, values: std::vec::Vec<T>) -> &mut [T] {
        let block = Box::leak(values.into_boxed_slice());
        let layout = Layout::for_value(block);
        if layout.size() > 0 {
            let start = block.as_mut_ptr().cast::<u8>();
            self.blocks.borrow_mut().push((start, layout));
        }
        block
    }
}

impl Drop for Bump {
    fn drop(&mut self) {
        self.reset();
    }
}

impl fmt::Debug for Bump {
    fn fmt(&self, f: &mut fmt::Formatter<'_>) -> fmt::Result {
        f.write_str("Bump")
    }
}

pub mod collections {
    use super::Bump;
    use std::ops::{Deref, DerefMut};

    pub struct Vec<'bump, T> {
        values: std::vec::Vec<T>,
        bump: &'bump Bump,
    }

    impl<'bump, T> Vec<'bump, T> {
        pub fn from_elem_in(elem: T, n: usize, bump: &'bump Bump) -> Self
        where
            T: Clone,
        {
            Vec {
                values: std::iter::repeat_n(elem, n).collect(),
                bump,
            }
        }

        pub fn as_slice(&self) -> &[T] {
            &self.values
        }

        pub fn into_bump_slice(self) -> &'bump [T] {
            self.bump.keep(self.values)
        }

        pub fn into_bump_slice_mut(self) -> &'bump mut [T] {
            self.bump.keep(self.values)
        }
    }

    impl<T> Deref for Vec<'_, T> {
        type Target = [T];

        fn deref(&self) -> &[T] {
            &self.values
        }
    }

    impl<T> DerefMut for Vec<'_, T> {
        fn deref_mut(&mut self) -> &mut [T] {
            &mut self.values
        }
    }

    pub trait FromIteratorIn<A> {
        type Alloc;

        fn from_iter_in<I: IntoIterator<Item = A>>(iter: I, alloc: Self::Alloc) -> Self;
    }

    impl<'bump, T> FromIteratorIn<T> for Vec<'bump, T> {
        type Alloc = &'bump Bump;

        fn from_iter_in<I: IntoIterator<Item = T>>(iter: I, bump: &'bump Bump) -> Self {
            Vec {
                values: iter.into_iter().collect(),
                bump,
            }
        }
    }

    pub trait CollectIn: Iterator + Sized {
        fn collect_in<C: FromIteratorIn<Self::Item>>(self, alloc: C::Alloc) -> C {
            C::from_iter_in(self, alloc)
        }
    }

    impl<I: Iterator> CollectIn for I {}
}

#[macro_export]
macro_rules! vec {
    (in $bump:expr; $elem:expr; $n:expr) => {
        $crate::collections::Vec::from_elem_in($elem, $n, $bump)
    };
}
