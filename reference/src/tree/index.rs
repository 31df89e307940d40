//! The index: a tree of at most N nodes, and the calls with their refusals in number order.

use super::emptiness::{is_empty, stopping_walk};
use super::nearest::{nearest, squared_distance, walk};
use super::{insert, query, remove, Entry, Inserted, Refusal, Tree, MOST_NODES};
use crate::geometry::{is_cell, Cell, Rectangle};

#[derive(Clone, Debug, PartialEq, Eq)]
pub struct Index {
    n: usize,
    tree: Option<Tree>,
}

/// An accepted insertion 'passes on the total removed by siblings' beside the entries held after
/// it.
#[derive(Clone, Copy, Debug, PartialEq, Eq)]
pub struct InsertAnswer {
    pub held: usize,
    pub removed: u64,
}

/// 'A point query answers held with tag, or not held, and the visits.'
#[derive(Clone, Copy, Debug, PartialEq, Eq)]
pub struct PointAnswer {
    /// The tag, if the cell is held.
    pub tag: Option<u32>,
    pub visits: usize,
}

/// A window query 'reports matches and visits'.
#[derive(Clone, Copy, Debug, PartialEq, Eq)]
pub struct WindowAnswer {
    pub matches: usize,
    pub visits: usize,
}

/// A nearest query's answer 'is the entry, the squared distance and the number of nodes entered'.
#[derive(Clone, Copy, Debug, PartialEq, Eq)]
pub struct NearestAnswer {
    pub entry: Entry,
    pub distance: u64,
    pub visits: usize,
}

/// An emptiness query gives 'a yes or no for a window' and the visits of its walk.
#[derive(Clone, Copy, Debug, PartialEq, Eq)]
pub struct EmptinessAnswer {
    pub is_empty: bool,
    pub visits: usize,
}

impl Index {
    /// The fresh, empty index of at most `n` nodes, 'N from 1 to 256'.
    pub fn new(n: usize) -> Index {
        Index::with_tree(n, None)
    }

    /// The index with a sound tree of at most `n` nodes.
    pub fn with_tree(n: usize, tree: Option<Tree>) -> Index {
        assert!((1..=MOST_NODES).contains(&n), "N is from 1 to 256");
        assert!(tree.as_ref().map_or(0, Tree::nodes) <= n, "at most N nodes");
        Index { n, tree }
    }

    pub fn n(&self) -> usize {
        self.n
    }

    /// The tree, none when the index is empty.
    pub fn tree(&self) -> Option<&Tree> {
        self.tree.as_ref()
    }

    /// The number of entries held.
    pub fn held(&self) -> usize {
        self.tree.as_ref().map_or(0, |tree| tree.entries().len())
    }

    /// 'Height is the number of levels, 0 when empty.'
    pub fn height(&self) -> usize {
        self.tree.as_ref().map_or(0, Tree::height)
    }

    /// Puts the entry in. Refusals 3, 5, 7 and 8.
    pub fn insert(&mut self, cell: Cell, tag: u32) -> Result<InsertAnswer, Refusal> {
        test_cell(cell)?;
        if self.holds(cell) {
            return Err(Refusal::Held);
        }
        let inserted = insert(self.tree(), Entry { cell, tag });
        let Inserted { tree, removed } = inserted.map_err(Refusal::OverLimit)?;
        if tree.nodes() > self.n {
            return Err(Refusal::TooManyNodes);
        }
        self.tree = Some(tree);
        Ok(InsertAnswer {
            held: self.held(),
            removed,
        })
    }

    /// Takes the cell's entry out; reports the entries held after the call. Refusals 3 and 6.
    pub fn remove(&mut self, cell: Cell) -> Result<usize, Refusal> {
        test_cell(cell)?;
        match &self.tree {
            Some(tree) if self.holds(cell) => self.tree = remove(tree, cell),
            _ => return Err(Refusal::NotHeld),
        }
        Ok(self.held())
    }

    /// Empties the index; reports the entries held after the call.
    pub fn clear(&mut self) -> usize {
        self.tree = None;
        self.held()
    }

    /// Refusal 3.
    pub fn point(&self, cell: Cell) -> Result<PointAnswer, Refusal> {
        test_cell(cell)?;
        Ok(PointAnswer {
            tag: self.entry_of(cell).map(|e| e.tag),
            visits: self
                .tree()
                .map_or(0, |tree| query::point_visits(tree, cell)),
        })
    }

    /// 'Writes x, y, tag for each matching entry in depth-first order, leaves the rest of the
    /// list.' Refusals 3 and 9.
    pub fn window(&self, window: Rectangle, list: &mut [u32]) -> Result<WindowAnswer, Refusal> {
        test_window(window)?;
        let found = self
            .tree()
            .map_or_else(Vec::new, |tree| query::matches(tree, window));
        let matches = found.len();
        if list.len() < 3 * matches {
            return Err(Refusal::ShortList { matches });
        }
        for (i, Entry { cell: [x, y], tag }) in found.into_iter().enumerate() {
            list[3 * i..3 * i + 3].copy_from_slice(&[x, y, tag]);
        }
        Ok(WindowAnswer {
            matches,
            visits: self
                .tree()
                .map_or(0, |tree| query::window_visits(tree, window)),
        })
    }

    /// 'The entry must be the one that a look at all of them gives', so that is how it is found; the
    /// walk gives the visits alone. Refusals 3 and 10.
    pub fn nearest(&self, cell: Cell) -> Result<NearestAnswer, Refusal> {
        test_cell(cell)?;
        let tree = self.tree().ok_or(Refusal::NothingHeld)?;
        let entry = nearest(&tree.entries(), cell).expect("a tree has an entry");
        Ok(NearestAnswer {
            entry,
            distance: squared_distance(entry.cell, cell),
            visits: walk(tree, cell).visits,
        })
    }

    /// The yes or no by a look at all entries; the walk gives the visits alone. Refusal 3.
    pub fn is_empty(&self, window: Rectangle) -> Result<EmptinessAnswer, Refusal> {
        test_window(window)?;
        let entries = self.tree().map_or_else(Vec::new, Tree::entries);
        Ok(EmptinessAnswer {
            is_empty: is_empty(&entries, window),
            visits: self
                .tree()
                .map_or(0, |tree| stopping_walk(tree, window).visits),
        })
    }

    fn entry_of(&self, cell: Cell) -> Option<Entry> {
        self.tree().and_then(|tree| query::entry_of(tree, cell))
    }

    fn holds(&self, cell: Cell) -> bool {
        self.entry_of(cell).is_some()
    }
}

/// Refusal 3: 'coordinate over 65535.'
fn test_cell(cell: Cell) -> Result<(), Refusal> {
    is_cell(cell).then_some(()).ok_or(Refusal::Invalid)
}

/// Refusal 3: 'window with ll >= ur in a dimension or ur over 65536.'
fn test_window(window: Rectangle) -> Result<(), Refusal> {
    window.is_valid().then_some(()).ok_or(Refusal::Invalid)
}
