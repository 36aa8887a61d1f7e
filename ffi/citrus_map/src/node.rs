//! What the values of a [`Map`](crate::Map) stand in, and who has them: [`NewNode`] before the index has it, [`Found`] while it is read in a
//! section, [`TakenOut`] once the index doesn't have it any more. All raw pointers of the crate to these are here.

use std::ptr::NonNull;

/// A value with its key. Its address is the value that the index has. A key is never of size 0, so no two nodes have one address, whatever
/// the values are. Nobody writes to a node that others may see.
pub(crate) struct Node<V> {
    pub(crate) key: u64,
    pub(crate) value: V,
}

/// What an index has for a node.
fn word_of<V>(node: NonNull<Node<V>>) -> u64 {
    node.as_ptr() as usize as u64
}

/// # Safety
/// The word is what an index has, or had, for a node.
unsafe fn node_of<V>(word: u64) -> NonNull<Node<V>> {
    // SAFETY: so says the caller, and a node's address isn't 0.
    unsafe { NonNull::new_unchecked(word as usize as *mut Node<V>) }
}

/// A node that is to be put into the index. It is no `Box`, which nobody else may read. Where it is dropped the value is leaked.
pub(crate) struct NewNode<V>(NonNull<Node<V>>);

impl<V> NewNode<V> {
    pub(crate) fn new(key: u64, value: V) -> NewNode<V> {
        NewNode(NonNull::from(Box::leak(Box::new(Node { key, value }))))
    }

    /// What the index is to have for it.
    pub(crate) fn word(&self) -> u64 {
        word_of(self.0)
    }

    /// # Safety
    /// The index never had it.
    pub(crate) unsafe fn into_value(self) -> V {
        // SAFETY: it was made of a box, and nobody else knows of it.
        unsafe { Box::from_raw(self.0.as_ptr()) }.value
    }
}

/// A node that was found in a section, in which its reader is still.
pub(crate) struct Found<V>(NonNull<Node<V>>);

impl<V> Found<V> {
    /// # Safety
    /// A hold told this word, and the section that it opened isn't left before this is dropped.
    pub(crate) unsafe fn new(word: u64) -> Found<V> {
        // SAFETY: so says the caller.
        Found(unsafe { node_of(word) })
    }

    pub(crate) fn node(&self) -> &Node<V> {
        // SAFETY: a node is given up after a wait for its key by who took it out. That wait isn't over before this section is left, or the
        // section found the node at a moment when somebody had put it back, and nobody puts a node in twice: so says the law
        // `outlives_its_holders` of the crate `tree_handles`. `HoldsValue` there says that the section is open and what it found.
        unsafe { self.0.as_ref() }
    }
}

/// The one owner of a node that was taken out of the index. Readers may still stand on it. Where it is dropped the value is leaked.
pub(crate) struct TakenOut<V>(NonNull<Node<V>>);

// SAFETY: its owner drops the value or hands it on, while readers in other threads still have it by `&`.
unsafe impl<V: Send + Sync> Send for TakenOut<V> {}

impl<V> TakenOut<V> {
    /// # Safety
    /// An update of the index told this word as what it took out or replaced, or the index has it and no handle is left; and of this one
    /// update, or once at the end, this is made.
    pub(crate) unsafe fn new(word: u64) -> TakenOut<V> {
        // SAFETY: so says the caller.
        TakenOut(unsafe { node_of(word) })
    }

    /// What the index had for it.
    pub(crate) fn word(&self) -> u64 {
        word_of(self.0)
    }

    pub(crate) fn key(&self) -> u64 {
        // SAFETY: it is owned, and nobody writes to it.
        unsafe { self.0.as_ref() }.key
    }

    /// # Safety
    /// No reader is left: a wait for its key that was begun by the handle that took it out, and after that, is over; or no handle is left.
    pub(crate) unsafe fn into_box(self) -> Box<Node<V>> {
        // SAFETY: it was made of a box, and is owned by this alone.
        unsafe { Box::from_raw(self.0.as_ptr()) }
    }
}

/// The nodes that a handle took out and hasn't given up, in the order in which it took them out.
pub(crate) struct Retired<V> {
    nodes: Vec<TakenOut<V>>,
}

impl<V> Default for Retired<V> {
    fn default() -> Retired<V> {
        Retired { nodes: Vec::new() }
    }
}

impl<V> Retired<V> {
    pub(crate) fn len(&self) -> usize {
        self.nodes.len()
    }

    pub(crate) fn push(&mut self, node: TakenOut<V>) {
        self.nodes.push(node);
    }

    /// The least and the greatest key of the nodes, where there are some.
    pub(crate) fn keys(&self) -> Option<(u64, u64)> {
        let keys = || self.nodes.iter().map(TakenOut::key);
        Some((keys().min()?, keys().max()?))
    }

    /// What the index had for the first so many nodes.
    pub(crate) fn words(&self, count: usize) -> impl Iterator<Item = u64> + '_ {
        self.nodes[..count].iter().map(TakenOut::word)
    }

    /// Of the first so many nodes those that don't stay, by what the index had for them. Those that stay are behind all others then.
    ///
    /// # Safety
    /// As of [`give_up`](Retired::give_up), of those that don't stay.
    pub(crate) unsafe fn give_up_but(&mut self, count: usize, stays: impl Fn(u64) -> bool) -> Vec<Box<Node<V>>> {
        let (staying, leaving): (Vec<_>, Vec<_>) = self.nodes.drain(..count).partition(|node| stays(node.word()));
        self.nodes.extend(staying);
        // SAFETY: so says the caller.
        leaving.into_iter().map(|node| unsafe { node.into_box() }).collect()
    }

    /// The first so many nodes. Where one of their values panics as it is dropped, the others are dropped all the same.
    ///
    /// # Safety
    /// For each of them as [`TakenOut::into_box`].
    pub(crate) unsafe fn give_up(&mut self, count: usize) -> Vec<Box<Node<V>>> {
        // SAFETY: so says the caller.
        self.nodes.drain(..count).map(|node| unsafe { node.into_box() }).collect()
    }
}
