//! Insertion, steps 1 to 4: the tree after, from the tree before, and request A.6's total.

use super::choose::{choose_branch, Step};
use super::line::line;
use super::split::split;
use super::{Branch, Entry, Limit, Node, Tree, F};
use crate::geometry::Rectangle;

/// What an insertion gives.
#[derive(Clone, Debug, PartialEq, Eq)]
pub struct Inserted {
    /// The tree with the entry put in, of any number of nodes.
    pub tree: Tree,
    /// 'The total removed by siblings, summed over all levels.'
    pub removed: u64,
}

/// Puts the entry in. The cell is not held before.
pub fn insert(tree: Option<&Tree>, entry: Entry) -> Result<Inserted, Limit> {
    let Some(tree) = tree else {
        return Ok(Inserted {
            tree: single_entry(entry),
            removed: 0,
        });
    };
    let mut tree = tree.clone();
    tree.rectangle = tree.rectangle.grow(entry.cell);
    let removed = insert_below(&mut tree.root, &[tree.rectangle], entry)?;
    if tree.root.count() > F {
        tree.root = new_root(tree.root, tree.rectangle);
    }
    Ok(Inserted { tree, removed })
}

/// Step 1: 'an empty index gets a leaf with that cell alone.'
fn single_entry(entry: Entry) -> Tree {
    let [x, y] = entry.cell;
    Tree {
        rectangle: Rectangle::new(x, y, x + 1, y + 1),
        root: Node::leaf(vec![entry]),
    }
}

/// Steps 2 and 3 on the way down, step 4 for the children on the way up. Returns the cells removed
/// here and below.
fn insert_below(node: &mut Node, polygon: &[Rectangle], entry: Entry) -> Result<u64, Limit> {
    match node {
        Node::Leaf(leaf) => {
            leaf.entries.push(entry);
            Ok(0)
        }
        Node::Routing(routing) => {
            let Step { place, removed } =
                choose_branch(&mut routing.branches, polygon, entry.cell)?;
            let branch = &mut routing.branches[place];
            let below = insert_below(&mut branch.child, &branch.polygon, entry)?;
            if branch.child.count() > F {
                let halves = halves(branch);
                routing.branches.splice(place..=place, halves);
            }
            Ok(removed + below)
        }
    }
}

/// Step 4: a branch with nine below it, split at its line. 'The left node takes the old place, the
/// right follows it.'
fn halves(branch: &Branch) -> [Branch; 2] {
    let (left, right) = split(branch, line(&branch.child));
    [left, right].map(|half| half.expect("each side of the line has entries"))
}

/// Step 4: 'a split root gets a new root above, with the old rectangle.'
fn new_root(root: Node, rectangle: Rectangle) -> Node {
    let whole = Branch {
        child: root,
        polygon: vec![rectangle],
    };
    Node::routing(halves(&whole).to_vec())
}
