//! Trees worked out by hand: each sentence of insertion, splitting and removal where it decides.

mod support;

use reference::tree::{Branch, Refusal, Tree};
use support::build::{leaf, routing, tag, tree};
use support::checked::{Checked, Command};

fn insert(cell: [u32; 2]) -> Command {
    Command::Insert(cell, tag(cell))
}

/// The commands turn the one tree into the other.
fn check(name: &str, before: Tree, commands: &[Command], after: Tree) {
    let mut checked = Checked::from_tree(256, Some(before), name.to_string());
    for &command in commands {
        assert_eq!(checked.apply(command), Ok(()), "{name}");
    }
    assert_eq!(checked.index.tree(), Some(&after), "{name}");
}

/// The branch that has the cell, and all siblings, stay as they are, refined or not.
#[test]
fn a_branch_has_the_cell() {
    let a = |cells: &[[u32; 2]]| leaf(&[[0, 0, 2, 4], [2, 0, 4, 4]], cells);
    let b = || leaf(&[[6, 0, 7, 4], [7, 0, 8, 4]], &[[7, 1]]);
    let before = tree([0, 0, 10, 10], vec![a(&[[1, 1]]), b()]);
    let after = tree([0, 0, 10, 10], vec![a(&[[1, 1], [3, 3]]), b()]);
    check("has the cell", before, &[insert([3, 3])], after);
}

/// The polygon that grows is refined as a whole, the sibling's is not.
#[test]
fn only_the_grown_polygon_is_refined() {
    let b = || leaf(&[[6, 0, 7, 4], [7, 0, 8, 4]], &[[7, 1]]);
    let a = leaf(&[[0, 0, 2, 4], [2, 0, 4, 4]], &[[1, 1]]);
    let before = tree([0, 0, 10, 10], vec![a, b()]);
    let grown = leaf(&[[0, 0, 4, 5]], &[[1, 1], [3, 4]]);
    // Extra area 2 for the second rectangle of the first branch.
    let list = leaf(&[[0, 0, 2, 4], [2, 0, 4, 5]], &[[1, 1], [3, 4]]);
    assert_ne!(grown, list);
    let after = tree([0, 0, 10, 10], vec![list, b()]);
    check("no rule applies", before, &[insert([3, 4])], after);

    let a = leaf(&[[0, 0, 2, 5], [2, 0, 4, 4]], &[[1, 1]]);
    let before = tree([0, 0, 10, 10], vec![a, b()]);
    let after = tree([0, 0, 10, 10], vec![grown, b()]);
    check("joined", before, &[insert([3, 4])], after);
}

#[test]
fn least_extra_area() {
    let (a, b) = ([0, 0, 2, 2], [4, 0, 6, 2]);
    let before = tree(
        [0, 0, 6, 2],
        vec![leaf(&[a], &[[0, 0]]), leaf(&[b], &[[5, 0]])],
    );
    let grown = leaf(&[[3, 0, 6, 2]], &[[5, 0], [3, 0]]);
    let after = tree([0, 0, 6, 2], vec![leaf(&[a], &[[0, 0]]), grown]);
    check("2 against 4", before, &[insert([3, 0])], after);
    // Nearer, but wider: 8 against 6.
    let (a, b) = ([0, 0, 1, 3], [5, 3, 13, 4]);
    let before = tree(
        [0, 0, 13, 5],
        vec![leaf(&[b], &[[5, 3]]), leaf(&[a], &[[0, 0]])],
    );
    let grown = leaf(&[[0, 0, 1, 8]], &[[0, 0], [0, 7]]);
    let after = tree([0, 0, 13, 8], vec![leaf(&[b], &[[5, 3]]), grown]);
    check("area, not distance", before, &[insert([0, 7])], after);
}

/// The cell lies in the middle of two rectangles: 'first branch then first rectangle on ties'.
#[test]
fn ties_of_extra_area() {
    let (a, b) = ([0, 0, 2, 2], [5, 0, 7, 2]);
    let root = [0, 0, 7, 2];
    let before = tree(root, vec![leaf(&[a], &[[0, 0]]), leaf(&[b], &[[5, 0]])]);
    let grown = leaf(&[[0, 0, 4, 2]], &[[0, 0], [3, 0]]);
    let after = tree(root, vec![grown, leaf(&[b], &[[5, 0]])]);
    check("first branch", before, &[insert([3, 0])], after);

    let before = tree(root, vec![leaf(&[b], &[[5, 0]]), leaf(&[a], &[[0, 0]])]);
    let grown = leaf(&[[3, 0, 7, 2]], &[[5, 0], [3, 0]]);
    let after = tree(root, vec![grown, leaf(&[a], &[[0, 0]])]);
    check(
        "first branch, other order",
        before,
        &[insert([3, 0])],
        after,
    );

    let before = tree(root, vec![leaf(&[b, a], &[[5, 0]])]);
    let after = tree(root, vec![leaf(&[[3, 0, 7, 2], a], &[[5, 0], [3, 0]])]);
    check("first rectangle", before, &[insert([3, 0])], after);

    let before = tree(root, vec![leaf(&[a, b], &[[5, 0]])]);
    let after = tree(root, vec![leaf(&[[0, 0, 4, 2], b], &[[5, 0], [3, 0]])]);
    check(
        "first rectangle, other order",
        before,
        &[insert([3, 0])],
        after,
    );
}

/// A's second rectangle grows and is cut by B and C; the pieces stand where it stood.
#[test]
fn cut_by_every_sibling_in_order() {
    let root = [0, 0, 20, 40];
    let other = [15, 28, 16, 29];
    let a = || leaf(&[other, [0, 20, 2, 22], [18, 0, 19, 1]], &[[15, 28]]);
    let b = || leaf(&[[4, 0, 6, 21]], &[[4, 0]]);
    let c = || leaf(&[[7, 21, 8, 40]], &[[7, 39]]);
    let grown = |pieces: [[u32; 4]; 5]| {
        let list = [&[other], &pieces[..], &[[18, 0, 19, 1]]].concat();
        leaf(&list, &[[15, 28], [9, 21]])
    };
    let (right, mid, low) = ([8, 20, 10, 22], [6, 20, 7, 22], [7, 20, 8, 21]);
    let (left, high) = ([0, 20, 4, 22], [4, 21, 6, 22]);
    let before = tree(root, vec![a(), b(), c()]);
    let after = tree(root, vec![grown([right, mid, low, left, high]), b(), c()]);
    check("B then C", before, &[insert([9, 21])], after);

    let before = tree(root, vec![c(), a(), b()]);
    let after = tree(root, vec![c(), grown([right, mid, left, high, low]), b()]);
    check("C then B", before, &[insert([9, 21])], after);
}

/// The parent's polygon is an L; the grown rectangle is not within it.
#[test]
fn common_parts_with_the_parent() {
    let root = [0, 0, 14, 10];
    let other = || routing(&[[12, 0, 14, 2]], vec![leaf(&[[12, 0, 13, 1]], &[[12, 0]])]);
    let parent = |child: Branch| routing(&[[0, 0, 10, 4], [0, 4, 4, 10]], vec![child]);
    let before = tree(
        root,
        vec![parent(leaf(&[[8, 0, 9, 2]], &[[8, 0]])), other()],
    );
    let grown = leaf(&[[3, 0, 9, 4], [3, 4, 4, 7]], &[[8, 0], [3, 6]]);
    let after = tree(root, vec![parent(grown), other()]);
    check("two parts", before, &[insert([3, 6])], after);
}

/// The parent's rectangles are those 'as grown in this insertion', at every level.
#[test]
fn parent_as_grown() {
    let before = tree(
        [0, 0, 12, 4],
        vec![
            routing(&[[0, 0, 4, 4]], vec![leaf(&[[0, 0, 4, 2]], &[[0, 0]])]),
            routing(&[[10, 0, 12, 2]], vec![leaf(&[[10, 0, 12, 2]], &[[10, 0]])]),
        ],
    );
    let grown = leaf(&[[0, 0, 6, 2]], &[[0, 0], [5, 1]]);
    let after = tree(
        [0, 0, 12, 4],
        vec![
            routing(&[[0, 0, 6, 4]], vec![grown]),
            routing(&[[10, 0, 12, 2]], vec![leaf(&[[10, 0, 12, 2]], &[[10, 0]])]),
        ],
    );
    check("two levels grow", before, &[insert([5, 1])], after);
}

/// 'The left node takes the old place, the right follows it'; clipped in order and refined.
#[test]
fn leaf_split_in_its_place() {
    let first = || leaf(&[[20, 0, 30, 1]], &[[20, 0]]);
    let last = || leaf(&[[40, 0, 50, 1]], &[[40, 0]]);
    let order = [7, 0, 6, 1, 5, 2, 4, 3];
    let cells = order.map(|x| [x, 0]);
    let full = leaf(&[[0, 0, 3, 1], [2, 0, 9, 1]], &cells);
    let before = tree([0, 0, 50, 1], vec![first(), full, last()]);
    let left = leaf(&[[0, 0, 5, 1]], &[0, 1, 2, 4, 3].map(|x| [x, 0]));
    let right = leaf(&[[5, 0, 9, 1]], &[7, 6, 5, 8].map(|x| [x, 0]));
    let after = tree([0, 0, 50, 1], vec![first(), left, right, last()]);
    check("leaf split", before, &[insert([8, 0])], after);
}

/// Nobody has entries on both sides of the line x = 4, but every polygon is clipped and refined.
#[test]
fn a_line_with_nobody_on_both_sides_still_clips() {
    let root = [0, 0, 100, 10];
    let mut branches = vec![leaf(&[[0, 0, 10, 10]], &[[3, 3]])];
    branches.push(leaf(&[[10, 0, 15, 10], [15, 0, 20, 10]], &[[13, 3]]));
    branches.extend((2..7).map(|i| leaf(&[[10 * i, 0, 10 * i + 10, 10]], &[[10 * i, 0]])));
    let cells: Vec<[u32; 2]> = (70..78).map(|x| [x, 0]).collect();
    branches.push(leaf(&[[70, 0, 80, 10]], &cells));
    let before = tree(root, branches);

    let left = routing(&[[0, 0, 4, 10]], vec![leaf(&[[0, 0, 4, 10]], &[[3, 3]])]);
    let mut branches = vec![leaf(&[[10, 0, 20, 10]], &[[13, 3]])];
    branches.extend((2..7).map(|i| leaf(&[[10 * i, 0, 10 * i + 10, 10]], &[[10 * i, 0]])));
    branches.push(leaf(&[[70, 0, 75, 10]], &cells[..5]));
    branches.push(leaf(
        &[[75, 0, 80, 10]],
        &[[75, 0], [76, 0], [77, 0], [78, 0]],
    ));
    let right = routing(&[[4, 0, 100, 10]], branches);
    check(
        "clipped",
        before,
        &[insert([78, 0])],
        tree(root, vec![left, right]),
    );
}

/// Four bars in a ring: every line has a branch on both sides, so one is split recursively.
#[test]
fn branches_are_split_recursively() {
    let root = [0, 0, 81, 81];
    let ring = || {
        vec![
            leaf(&[[80, 0, 81, 80]], &[[80, 0], [80, 70]]),
            leaf(&[[10, 80, 81, 81]], &[[10, 80], [80, 80]]),
        ]
    };
    let left_bar = || leaf(&[[0, 10, 1, 81]], &[[0, 10], [0, 80]]);
    let inner = || {
        vec![
            leaf(&[[20, 20, 30, 21]], &[[20, 20]]),
            leaf(&[[20, 30, 30, 31]], &[[25, 30]]),
            leaf(&[[20, 40, 30, 41]], &[[21, 40]]),
        ]
    };
    let cells: Vec<[u32; 2]> = (20..28).map(|x| [x, 50]).collect();
    let mut branches = vec![leaf(&[[0, 0, 80, 1]], &[[70, 0], [0, 0]])];
    branches.extend(ring());
    branches.push(left_bar());
    branches.extend(inner());
    branches.push(leaf(&[[20, 50, 40, 51]], &cells));
    let before = tree(root, branches);

    let left = vec![leaf(&[[0, 0, 1, 1]], &[[0, 0]]), left_bar()];
    let mut right = vec![leaf(&[[1, 0, 80, 1]], &[[70, 0]])];
    right.extend(ring());
    right.extend(inner());
    right.push(leaf(&[[20, 50, 25, 51]], &cells[..5]));
    right.push(leaf(
        &[[25, 50, 40, 51]],
        &[[25, 50], [26, 50], [27, 50], [28, 50]],
    ));
    let halves = vec![
        routing(&[[0, 0, 1, 81]], left),
        routing(&[[1, 0, 81, 81]], right),
    ];
    check("recursive", before, &[insert([28, 50])], tree(root, halves));
}

/// Emptied nodes go, polygons stay, the root keeps its one branch.
#[test]
fn removal() {
    let root = [0, 0, 100, 100];
    let p = routing(&[[0, 0, 50, 100]], vec![leaf(&[[0, 0, 9, 9]], &[[1, 1]])]);
    let b = || leaf(&[[50, 0, 60, 9]], &[[50, 1], [51, 1], [52, 1]]);
    let c = || leaf(&[[70, 0, 80, 9]], &[[70, 1]]);
    let q = |leaves: Vec<Branch>| routing(&[[50, 0, 100, 50], [60, 50, 70, 60]], leaves);
    let before = || tree(root, vec![p.clone(), q(vec![b(), c()])]);
    let remove = |x: u32| Command::Remove([x, 1]);

    let after = tree(root, vec![q(vec![b(), c()])]);
    check("nodes above", before(), &[remove(1)], after);
    let gap_closed = leaf(&[[50, 0, 60, 9]], &[[50, 1], [52, 1]]);
    let after = tree(root, vec![q(vec![gap_closed])]);
    let commands = [remove(1), remove(51), remove(70)];
    check("gap closed, one branch left", before(), &commands, after);

    let mut checked = Checked::from_tree(6, Some(before()), "last removal".to_string());
    for x in [1, 50, 51, 52, 70] {
        assert_eq!(checked.apply(remove(x)), Ok(()));
    }
    assert!(checked.index.tree().is_none());
}

/// A chain of one-branch nodes over a leaf, with so many levels.
fn chain(levels: usize) -> Tree {
    let all = [0, 0, 65536, 65536];
    let cells: Vec<[u32; 2]> = (0..8).map(|x| [x, 0]).collect();
    let mut branch = leaf(&[all], &cells);
    for _ in 2..levels {
        branch = routing(&[all], vec![branch]);
    }
    tree(all, vec![branch])
}

/// A sound tree can have as many levels as nodes.
#[test]
fn high_trees() {
    for (n, levels) in [(256, 256), (256, 255), (64, 64), (64, 63)] {
        let mut checked = Checked::from_tree(n, Some(chain(levels)), "chain".to_string());
        assert_eq!(checked.apply(Command::Point([3, 0])), Ok(()));
        assert_eq!(checked.index.height(), levels);
        let ninth = checked.apply(insert([8, 0]));
        if levels == n {
            assert_eq!(ninth, Err(Refusal::TooManyNodes));
        } else {
            assert_eq!(ninth, Ok(()));
        }
        for x in 0..8 {
            assert_eq!(checked.apply(Command::Remove([x, 0])), Ok(()));
        }
    }
}
