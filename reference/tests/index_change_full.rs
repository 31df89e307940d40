//! Refusal 8: an insertion is refused exactly where the tree after would have more than N nodes, for
//! each N from the nodes of the tree before to one more than the tree after has. An insertion that
//! splits nodes at some levels makes at least as many nodes more, and a split root one more still;
//! children that a line crosses are split, too, and make the tree after larger than that.

mod memory_support;
mod support;

use memory_support::after_call::check_whole;
use memory_support::built::below;
use memory_support::calls::Session;
use memory_support::crossed_lines::wheel_tree;
use memory_support::full_path::{full_leaf_cells, steep_tree};
use memory_support::histories::random_history;
use memory_support::images::{any_image, nodes};
use memory_support::trees::random_tree;
use memory_support::work_areas::DIRTS;
use memory_support::MOST_PARTS;
use reference::geometry::{Cell, Rectangle};
use reference::random::Random;
use reference::tree::{insert, Entry, Node, Tree};
use support::build::leaf;
use support::checked::Command;
use support::counts::Tally;
use support::limits::{filled_bars, PIECES_256, PIECES_257};
use support::trace::trace;
use support::{cut_by_siblings, grown_leaves, say, seed};

const GRID: Rectangle = Rectangle {
    ll: [0, 0],
    ur: [65536, 65536],
};

/// The insertion's splits: levels at which a node is split, and the least number of nodes after.
struct Splits {
    levels: usize,
    least: usize,
}

impl Splits {
    fn of(tree: &Tree, entry: Entry) -> Splits {
        let unsplit = trace(tree, entry).unsplit;
        let levels = split_levels(&unsplit.root).unwrap_or(0);
        let new_root = usize::from(levels == tree.height());
        Splits {
            levels,
            least: tree.nodes() + levels + new_root,
        }
    }

    fn kind(&self) -> &'static str {
        LEVELS[self.levels]
    }
}

const LEVELS: [&str; 9] = [
    "no level split",
    "1 level split",
    "2 levels split",
    "3 levels split",
    "4 levels split",
    "5 levels split",
    "6 levels split",
    "7 levels split",
    "8 levels split",
];

/// The levels of full nodes above a leaf with nine entries, and that leaf; none where there is no
/// such leaf.
fn split_levels(node: &Node) -> Option<usize> {
    match node {
        Node::Leaf(leaf) => (leaf.entries.len() > 8).then_some(1),
        Node::Routing(routing) => {
            let below = routing
                .branches
                .iter()
                .map(|b| (&b.child, split_levels(&b.child)));
            let (child, levels) = below.into_iter().find(|(_, levels)| levels.is_some())?;
            let splits = levels? == height(child) && routing.branches.len() == 8;
            Some(levels? + usize::from(splits))
        }
    }
}

fn height(node: &Node) -> usize {
    match node {
        Node::Leaf(_) => 1,
        Node::Routing(routing) => 1 + height(&routing.branches[0].child),
    }
}

/// Inserts the cell into images of every N around the nodes of the tree before and after.
fn insert_for_every_n(
    tree: &Tree,
    cell: Cell,
    label: &str,
    random: &mut Random,
    tally: &mut Tally,
) {
    let entry = Entry { cell, tag: 5 };
    let before = tree.nodes();
    let after = match insert(Some(tree), entry) {
        Ok(after) => after.tree.nodes(),
        Err(_) => usize::MAX,
    };
    let splits = Splits::of(tree, entry);
    let last = match after {
        usize::MAX => before + 12,
        _ => after + 1,
    };
    for n in before..=last.min(MOST_PARTS) {
        let answer = match after {
            usize::MAX => 7,
            _ if n < after => 8,
            _ => 0,
        };
        insert_for(tree, n, entry, answer, label, random);
        tally.count(splits.kind());
        tally.count(match answer {
            7 => "refused 7",
            8 if n < splits.least => BY_LEVELS,
            8 => BY_COUNT,
            _ if n > after => "accepted, room left",
            _ if after > splits.least => "accepted, full after, crossing children",
            _ => "accepted, full after",
        });
    }
}

/// One insertion, which is answered so; after a refusal it is refused again.
fn insert_for(tree: &Tree, n: usize, entry: Entry, answer: u32, label: &str, random: &mut Random) {
    let image = any_image(n, Some(tree), random);
    let label = format!("{label}, N = {n}");
    let mut session = Session::of_image(&image, random.pick(&DIRTS), label.clone());
    let command = Command::Insert(entry.cell, entry.tag);
    session.expect(command, answer);
    check_whole(session.numbers(), session.held(), &label);
    if answer != 0 {
        assert_eq!(session.numbers(), image, "{label}");
        session.expect(command, answer);
    }
}

/// A cell between the entries of a full leaf that is not held.
fn cell_to_split(tree: &Tree, random: &mut Random) -> Option<Cell> {
    let full = full_leaf_cells(tree);
    if full.is_empty() {
        return None;
    }
    let held: Vec<Cell> = tree.entries().iter().map(|e| e.cell).collect();
    let leaf = 8 * random.between(0, full.len() as u32 / 8 - 1) as usize;
    let [a, b] = [0, 1].map(|_| random.pick(&full[leaf..leaf + 8]));
    Some([a[0], b[1]]).filter(|cell| !held.contains(cell))
}

/// Insertions into the tree that split a leaf.
fn split(tree: &Tree, count: usize, label: &str, random: &mut Random, tally: &mut Tally) {
    for _ in 0..count {
        if let Some(cell) = cell_to_split(tree, random) {
            insert_for_every_n(tree, cell, label, random, tally);
        }
    }
}

/// Full paths of one to eight levels, from the root down or below one-branch nodes: splits at each
/// number of levels, with a new root and without.
#[test]
fn full_paths() {
    let seed = seed();
    let mut tally = Tally::default();
    for case in 0..320 {
        let mut random = Random::for_case(seed, 1710, case);
        let levels = 1 + case as usize % 8;
        let tree = steep_tree(levels, GRID, &mut random);
        let tree = below(&tree, case as usize / 8 % 3);
        let label = format!("LINTZOGER_SEED={seed}, full path {case}");
        split(&tree, 2, &label, &mut random, &mut tally);
    }
    say(&format!("every N, full paths: {tally}"));
    tally.require(40, &LEVELS[1..]);
    tally.require(
        40,
        &[BY_LEVELS, "accepted, full after", "accepted, room left"],
    );
}

/// Wheels, where each line of a routing node crosses branches.
#[test]
fn crossing_children() {
    let seed = seed();
    let mut tally = Tally::default();
    for case in 0..120 {
        let mut random = Random::for_case(seed, 1713, case);
        let tree = wheel_tree(2 + case as usize % 4, &mut random);
        let tree = below(&tree, case as usize / 4 % 2);
        let label = format!("LINTZOGER_SEED={seed}, wheel {case}");
        split(&tree, 2, &label, &mut random, &mut tally);
    }
    say(&format!("every N, wheels: {tally}"));
    tally.require(40, &LEVELS[2..6]);
    tally.require(
        40,
        &[
            BY_LEVELS,
            BY_COUNT,
            "accepted, full after, crossing children",
        ],
    );
}

const BY_LEVELS: &str = "refused 8, less than a node for each split";
const BY_COUNT: &str = "refused 8, only crossing children are too many";

/// Histories and trees made directly.
#[test]
fn random_trees() {
    let seed = seed();
    let mut tally = Tally::default();
    for case in 0..400 {
        let mut random = Random::for_case(seed, 1711, case);
        let most = random.pick(&[4, 16, 40, 64]);
        let tree = match case % 3 {
            0 => Some(random_tree(most, &mut random)),
            _ => random_history(most, &mut random),
        };
        let label = format!("LINTZOGER_SEED={seed}, random tree {case}");
        if let Some(tree) = tree {
            split(&tree, 2, &label, &mut random, &mut tally);
        }
    }
    say(&format!("every N, random trees: {tally}"));
    tally.require(100, &["1 level split"]);
    tally.require(20, &["2 levels split"]);
}

/// '7 before 8': the growing leaf has eight entries and the root eight branches, so that the root is
/// split where the limit is not passed.
#[test]
fn limit_before_nodes() {
    let seed = seed();
    let mut random = Random::for_case(seed, 1712, 0);
    for (counts, kind) in [(PIECES_257, "refused 7"), (PIECES_256, BY_LEVELS)] {
        let (mut built, cell) = filled_bars(&counts);
        grown_leaves::put_all(
            &mut built,
            &grown_leaves::eight(cut_by_siblings::EDGE, 0)[1..],
        );
        let tree = with_far_leaves(built.index.tree().cloned().expect("a tree"));
        let mut tally = Tally::default();
        for levels in [0, 1, 2] {
            let tree = below(&tree, levels);
            let label = format!("LINTZOGER_SEED={seed}, {levels} levels above");
            insert_for_every_n(&tree, cell, &label, &mut random, &mut tally);
        }
        say(&format!("every N, {kind}: {tally}"));
        tally.require(6, &[kind]);
    }
}

/// The tree, whose root is a routing node, with leaves of one cell until the root has eight branches.
fn with_far_leaves(mut tree: Tree) -> Tree {
    let before = nodes(Some(&tree));
    let Node::Routing(root) = &mut tree.root else {
        panic!("the root is a leaf");
    };
    for i in root.branches.len() as u32..8 {
        let [x, y] = [64_000 + 10 * i, 0];
        root.branches.push(leaf(&[[x, y, x + 1, y + 1]], &[[x, y]]));
        tree.rectangle = tree.rectangle.grow([x, y]);
    }
    assert!(tree.nodes() > before);
    tree
}
