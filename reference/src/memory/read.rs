//! Reading a memory into a tree. Reading is strict: each number is one that the layout names, or
//! zero.

use super::layout::{
    is_in_use, part, parts_of, HEAD, HEAD_USED, HEIGHT, ITEMS, ITEM_COUNT, PER_CHILD, PER_ENTRY,
    PER_RECTANGLE, RECTANGLES, RECTANGLE_COUNT, ROOT,
};
use super::{is_sound, Refusal};
use crate::geometry::{Rectangle, POLYGON_LIMIT};
use crate::tree::{Branch, Entry, Index, Node, Tree, F, MOST_NODES};

/// The index that a memory holds. Refusals 1 and 4.
pub fn read(memory: &[u32]) -> Result<Index, Refusal> {
    let n = parts_of(memory.len()).ok_or(Refusal::WrongLength)?;
    let tree = read_back(memory).ok_or(Refusal::NoSoundTree)?;
    if !tree.as_ref().is_none_or(is_sound) {
        return Err(Refusal::NoSoundTree);
    }
    Ok(Index::with_tree(n, tree))
}

/// The tree of a memory that keeps to the layout, sound or not; `Some(None)` where it is empty.
pub fn read_back(memory: &[u32]) -> Option<Option<Tree>> {
    let n = parts_of(memory.len())?;
    if memory[HEIGHT] != 0 {
        read_tree(memory, n).map(Some)
    } else {
        are_zero(memory).then_some(None)
    }
}

fn are_zero(numbers: &[u32]) -> bool {
    numbers.iter().all(|&number| number == 0)
}

/// The tree of a memory whose height is not 0, sound or not.
fn read_tree(memory: &[u32], n: usize) -> Option<Tree> {
    let mut reader = Reader {
        memory,
        n,
        last: None,
        reached: [false; MOST_NODES],
    };
    let root = reader.node(memory[HEIGHT] - 1, memory[ROOT] as usize)?;
    if root.polygon.len() != 1 || !reader.rest_fits() {
        return None;
    }
    Some(Tree {
        rectangle: root.polygon[0],
        root: root.child,
    })
}

/// Goes from the root down to all nodes.
struct Reader<'a> {
    memory: &'a [u32],
    n: usize,
    /// The part read last; a part is read when its children are.
    last: Option<usize>,
    reached: [bool; MOST_NODES],
}

impl Reader<'_> {
    /// The node at part k, whose leaves lie `level` steps below it, with its polygon.
    fn node(&mut self, level: u32, k: usize) -> Option<Branch> {
        if k >= self.n || !is_in_use(self.memory, k) {
            return None;
        }
        let polygon = read_polygon(part(self.memory, k))?;
        let child = match level {
            0 => read_leaf(part(self.memory, k))?,
            _ => self.routing(level, k)?,
        };
        if self.last.is_some_and(|last| last >= k) {
            return None;
        }
        self.last = Some(k);
        self.reached[k] = true;
        Some(Branch { child, polygon })
    }

    /// 'A node after its children': so a child's part is below the node's own.
    fn routing(&mut self, level: u32, k: usize) -> Option<Node> {
        let mut branches = Vec::new();
        for &child in items(part(self.memory, k), PER_CHILD)? {
            let child = child as usize;
            if child >= k {
                return None;
            }
            branches.push(self.node(level - 1, child)?);
        }
        Some(Node::routing(branches))
    }

    /// The parts in use are those reached, and what is not in use is zero.
    fn rest_fits(&self) -> bool {
        let in_use = |k: usize| is_in_use(self.memory, k);
        (0..MOST_NODES).all(|k| in_use(k) == self.reached[k])
            && are_zero(&self.memory[HEAD_USED..HEAD])
            && (0..self.n).all(|k| in_use(k) || are_zero(part(self.memory, k)))
    }
}

/// The rectangles of a part, if their count fits and zeros follow them.
fn read_polygon(part: &[u32]) -> Option<Vec<Rectangle>> {
    let count = part[RECTANGLE_COUNT] as usize;
    if !(1..=POLYGON_LIMIT).contains(&count) {
        return None;
    }
    let (used, rest) = part[RECTANGLES..ITEMS].split_at(PER_RECTANGLE * count);
    if !are_zero(rest) {
        return None;
    }
    let rectangles = used.chunks(PER_RECTANGLE);
    Some(
        rectangles
            .map(|r| Rectangle::new(r[0], r[1], r[2], r[3]))
            .collect(),
    )
}

/// The numbers of a part's entries or children, if their count fits and zeros follow them.
fn items(part: &[u32], per_item: usize) -> Option<&[u32]> {
    let count = part[ITEM_COUNT] as usize;
    if !(1..=F).contains(&count) {
        return None;
    }
    let (used, rest) = part[ITEMS..].split_at(per_item * count);
    are_zero(rest).then_some(used)
}

fn read_leaf(part: &[u32]) -> Option<Node> {
    let entries = items(part, PER_ENTRY)?.chunks(PER_ENTRY);
    let entries = entries.map(|e| Entry {
        cell: [e[0], e[1]],
        tag: e[2],
    });
    Some(Node::leaf(entries.collect()))
}
