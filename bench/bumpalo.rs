//! Stand-in for `bumpalo` that costs what an arena costs: a slice is taken off the front of a block, and a reset keeps the block.
//!
//! The oracle's own stand-in has a block for each slice, which is simpler and dearer. As with the crate that both stand for, what is put
//! into a slice is never dropped.

use std::{
    alloc::{Layout, alloc, dealloc, handle_alloc_error},
    cell::{Cell, RefCell},
    fmt,
    ptr::NonNull,
};

const FIRST: usize = 512;
const ALIGN: usize = 16;

pub struct Bump {
    at: Cell<usize>,
    end: Cell<usize>,
    blocks: RefCell<std::vec::Vec<(NonNull<u8>, Layout)>>,
}

impl Bump {
    #[allow(clippy::new_without_default)]
    pub fn new() -> Self {
        Bump {
            at: Cell::new(0),
            end: Cell::new(0),
            blocks: RefCell::new(std::vec::Vec::new()),
        }
    }

    /// The last block, which is the largest, is kept.
    #[inline]
    pub fn reset(&mut self) {
        let blocks = self.blocks.get_mut();
        let Some(&(last, layout)) = blocks.last() else {
            return;
        };
        if blocks.len() > 1 {
            blocks.pop();
            free(blocks);
            blocks.push((last, layout));
        }
        self.at.set(last.as_ptr() as usize);
    }

    #[inline]
    fn room<T>(&self, n: usize) -> *mut T {
        let layout = Layout::array::<T>(n).expect("a slice that fits");
        let start = self.at.get().next_multiple_of(layout.align());
        if self.end.get().saturating_sub(start) >= layout.size() && start != 0 {
            self.at.set(start + layout.size());
            return start as *mut T;
        }
        self.grow(layout) as *mut T
    }

    #[cold]
    fn grow(&self, wanted: Layout) -> usize {
        let mut blocks = self.blocks.borrow_mut();
        let last = blocks.last().map_or(FIRST / 2, |(_, layout)| layout.size());
        let layout =
            Layout::from_size_align((2 * last).max(wanted.size()), ALIGN).expect("a block");
        // The layout's size is not 0.
        let Some(block) = NonNull::new(unsafe { alloc(layout) }) else {
            handle_alloc_error(layout)
        };
        blocks.push((block, layout));
        let start = block.as_ptr() as usize;
        self.at.set(start + wanted.size());
        self.end.set(start + layout.size());
        start
    }
}

fn free(blocks: &mut std::vec::Vec<(NonNull<u8>, Layout)>) {
    for (block, layout) in blocks.drain(..) {
        // Each block came from `alloc` with this layout.
        unsafe { dealloc(block.as_ptr(), layout) };
    }
}

impl Drop for Bump {
    fn drop(&mut self) {
        free(self.blocks.get_mut());
    }
}

impl fmt::Debug for Bump {
    fn fmt(&self, f: &mut fmt::Formatter<'_>) -> fmt::Result {
        f.write_str("Bump")
    }
}

pub mod collections {
    use super::Bump;
    use std::{
        ops::{Deref, DerefMut},
        slice,
    };

    pub struct Vec<'bump, T> {
        values: &'bump mut [T],
    }

    impl<'bump, T> Vec<'bump, T> {
        /// So many values at the front of what the arena has.
        #[inline]
        fn filled(bump: &'bump Bump, n: usize, values: impl Iterator<Item = T>) -> Self {
            let room = bump.room::<T>(n);
            let mut count = 0;
            for value in values.take(n) {
                // There is room for n, and the count is below it.
                unsafe { room.add(count).write(value) };
                count += 1;
            }
            // As many were written, and nothing else has this part of the block.
            let values = unsafe { slice::from_raw_parts_mut(room, count) };
            Vec { values }
        }

        #[inline]
        pub fn from_elem_in(elem: T, n: usize, bump: &'bump Bump) -> Self
        where
            T: Clone,
        {
            Self::filled(bump, n, std::iter::repeat_n(elem, n))
        }

        pub fn as_slice(&self) -> &[T] {
            self.values
        }

        pub fn into_bump_slice(self) -> &'bump [T] {
            self.values
        }

        pub fn into_bump_slice_mut(self) -> &'bump mut [T] {
            self.values
        }
    }

    impl<T> Deref for Vec<'_, T> {
        type Target = [T];

        fn deref(&self) -> &[T] {
            self.values
        }
    }

    impl<T> DerefMut for Vec<'_, T> {
        fn deref_mut(&mut self) -> &mut [T] {
            self.values
        }
    }

    pub trait FromIteratorIn<A> {
        type Alloc;

        fn from_iter_in<I: IntoIterator<Item = A>>(iter: I, alloc: Self::Alloc) -> Self;
    }

    impl<'bump, T> FromIteratorIn<T> for Vec<'bump, T> {
        type Alloc = &'bump Bump;

        /// The text collects from slices alone, whose length is known.
        #[inline]
        fn from_iter_in<I: IntoIterator<Item = T>>(iter: I, bump: &'bump Bump) -> Self {
            let iter = iter.into_iter();
            let (least, most) = iter.size_hint();
            assert!(most == Some(least));
            Self::filled(bump, least, iter)
        }
    }

    pub trait CollectIn: Iterator + Sized {
        #[inline]
        fn collect_in<C: FromIteratorIn<Self::Item>>(self, alloc: C::Alloc) -> C {
            C::from_iter_in(self, alloc)
        }
    }

    impl<I: Iterator> CollectIn for I {}
}

#[macro_export]
macro_rules! vec {
    (in $bump:expr; $elem:expr; $n:expr) => {
        $crate::collections::Vec::from_elem_in($elem, $n, $bump)
    };
}
