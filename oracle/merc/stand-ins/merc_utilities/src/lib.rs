//! Stand-in for the one type that the excerpt uses: an index that carries a tag in its type.

use std::fmt;
use std::hash::Hash;
use std::hash::Hasher;
use std::marker::PhantomData;
use std::ops::Deref;
use std::ops::Index;

/// A number whose type says what it counts. The traits are written out so that they ask nothing
/// of `Tag`.
pub struct TagIndex<T, Tag> {
    index: T,
    tag: PhantomData<fn() -> Tag>,
}

impl<T, Tag> TagIndex<T, Tag> {
    pub fn new(index: T) -> Self {
        TagIndex { index, tag: PhantomData }
    }
}

impl<T, Tag> Deref for TagIndex<T, Tag> {
    type Target = T;

    fn deref(&self) -> &T {
        &self.index
    }
}

impl<T: Copy, Tag> Copy for TagIndex<T, Tag> {}

impl<T: Copy, Tag> Clone for TagIndex<T, Tag> {
    fn clone(&self) -> Self {
        *self
    }
}

impl<T: PartialEq, Tag> PartialEq for TagIndex<T, Tag> {
    fn eq(&self, other: &Self) -> bool {
        self.index == other.index
    }
}

impl<T: Eq, Tag> Eq for TagIndex<T, Tag> {}

impl<T: Hash, Tag> Hash for TagIndex<T, Tag> {
    fn hash<H: Hasher>(&self, state: &mut H) {
        self.index.hash(state);
    }
}

impl<T: fmt::Debug, Tag> fmt::Debug for TagIndex<T, Tag> {
    fn fmt(&self, f: &mut fmt::Formatter<'_>) -> fmt::Result {
        self.index.fmt(f)
    }
}

/// A vector read at a tagged index.
impl<T, Tag> Index<TagIndex<usize, Tag>> for Vec<T> {
    type Output = T;

    fn index(&self, index: TagIndex<usize, Tag>) -> &T {
        &self[index.index]
    }
}
