//! What may be done next, as iterators. The archive reads a listing entry by entry; here entries of one action stand together.

use std::vec::IntoIter;

/// For each process, the post-locations that it may go to.
pub type Posts<L> = IntoIter<IntoIter<L>>;

/// An entry of a listing.
#[derive(Clone, Copy)]
pub(crate) struct Entry {
    pub(crate) action: u32,
    pub(crate) process: u32,
    pub(crate) post: u32,
}

/// The entries of a listing by their actions. `entry` reads one by its number, and answers none past the end.
pub(crate) struct ByAction<E> {
    entry: E,
    processes: usize,
    next: usize,
    ahead: Option<Entry>,
}

impl<E: FnMut(usize) -> Option<Entry>> ByAction<E> {
    pub(crate) fn new(processes: usize, entry: E) -> Self {
        ByAction { entry, processes, next: 0, ahead: None }
    }

    fn read(&mut self) -> Option<Entry> {
        self.ahead.take().or_else(|| (self.entry)(self.next))
    }
}

impl<E: FnMut(usize) -> Option<Entry>> Iterator for ByAction<E> {
    type Item = (u32, Vec<Vec<u32>>);

    fn next(&mut self) -> Option<Self::Item> {
        let first = self.read()?;
        let mut posts = vec![vec![]; self.processes];
        let mut entry = Some(first);
        while let Some(read) = entry {
            if read.action != first.action {
                self.ahead = Some(read);
                break;
            }
            if let Some(of_process) = posts.get_mut(read.process as usize) {
                of_process.push(read.post);
            }
            self.next += 1;
            entry = (self.entry)(self.next);
        }
        Some((first.action, posts))
    }
}

/// Post-locations under their names.
pub(crate) fn posts<L>(posts: Vec<Vec<u32>>, name: impl Fn(u32) -> L) -> Posts<L> {
    let of_process = |posts: Vec<u32>| posts.into_iter().map(&name).collect::<Vec<L>>();
    let all: Vec<IntoIter<L>> = posts.into_iter().map(|posts| of_process(posts).into_iter()).collect();
    all.into_iter()
}
