//! Trees that are nearly sound, written as images: each clause of soundness at each place.

mod memory_support;
mod support;

use memory_support::built::{built_trees, not_covered, scattered};
use memory_support::damaged::Damaged;
use memory_support::half_sound::loose_tree;
use memory_support::images::{any_image, first_parts, nodes};
use memory_support::lent::Lent;
use reference::memory::image;
use reference::random::Random;
use reference::tree::{Node, Tree};
use support::build::{leaf, routing, tree};
use support::counts::Tally;
use support::{say, seed};

/// Both implementations answer with this number.
fn expect_numbers(answer: u32, index: &[u32], place: &str) {
    let lent = Lent::new(index);
    let output = lent.point(&lent.reading(), [65535, 0], format_args!("{place}"));
    assert_eq!(output.answer, answer, "{place}");
}

fn expect(answer: u32, tree: &Tree, place: &str) {
    let count = nodes(Some(tree));
    let index = image(count, Some(tree), &first_parts(count));
    expect_numbers(answer, &index, place);
}

/// Trees on grids so small that the cells of a child are often just covered, or just not.
#[test]
fn loose_trees() {
    const CASES: u64 = 150_000;
    let seed = seed();
    let mut tally = Tally::default();
    for case in 0..CASES {
        let mut random = Random::for_case(seed, 620, case);
        let side = random.between(2, 9);
        let tree = loose_tree(side, &mut random);
        let image = any_image(6, Some(&tree), &mut random);
        let mut damaged = Damaged::new(image, Some(&tree), &mut random);
        damaged.query(format_args!("LINTZOGER_SEED={seed}, case {case}"));
        tally.add_all(&damaged.tally);
    }
    say(&format!("loose trees: {tally}"));
    tally.require(CASES / 8, &["images accepted", "images refused"]);
}

#[test]
fn built() {
    for (name, tree) in built_trees() {
        expect(0, &tree, name);
    }
    expect(4, &not_covered(), "289 pieces, none covered");
}

/// Rectangle b of sibling i: eight columns of sixteen.
fn tile(i: usize, b: usize) -> [u32; 4] {
    let [x, y] = [10 * i as u32, 3 * b as u32];
    [x, y, x + 10, y + 2]
}

/// Each rectangle of each of eight siblings shares a cell with each rectangle of each other one.
#[test]
fn every_pair_of_siblings() {
    let column = |i: usize| (0..16).map(|b| tile(i, b)).collect::<Vec<_>>();
    let mut count = 0;
    for (i, j) in pairs(8).into_iter().flat_map(|(i, j)| [(i, j), (j, i)]) {
        for (a, b) in (0..16).flat_map(|a| (0..16).map(move |b| (a, b))) {
            let siblings = (0..8).map(|k| {
                let (mut rectangles, mut cell) = (column(k), tile(k, 0));
                if k == i {
                    let [x, y, ..] = tile(j, b);
                    rectangles[a] = [x + 9, y + 1, x + 10, y + 2];
                    cell = tile(k, 15 - a);
                }
                leaf(&rectangles, &[[cell[0], cell[1]]])
            });
            let tree = tree([0, 0, 80, 50], siblings.collect());
            expect(4, &tree, &format!("siblings {i}, {j}, rectangles {a}, {b}"));
            count += 1;
        }
    }
    let siblings = (0..8).map(|k| leaf(&column(k), &[[10 * k as u32, 0]]));
    let sound = tree([0, 0, 80, 50], siblings.collect());
    expect(0, &sound, "siblings that share no cell");
    assert_eq!(count, 56 * 256);
}

/// The pairs i < j < n.
fn pairs(n: usize) -> Vec<(usize, usize)> {
    let pairs = (0..n).flat_map(|i| (i + 1..n).map(move |j| (i, j)));
    pairs.collect()
}

/// Each rectangle of a child in each of its parent's, and just out of it on each side.
#[test]
fn every_rectangle_of_a_child() {
    let parent = scattered(16);
    let cell = |[x, y]: [u32; 2]| [x, y, x + 1, y + 1];
    for (a, b) in (0..16).flat_map(|a| (0..16).map(move |b| (a, b))) {
        let [llx, lly, urx, ury] = parent[b];
        let with = |place: [u32; 2]| {
            let mut child = parent.clone();
            child[a] = cell(place);
            let last = parent[15 - a];
            let leaf = leaf(&child, &[[last[0], last[1]]]);
            tree([0, 0, 80, 80], vec![routing(&parent, vec![leaf])])
        };
        for place in [[llx, lly], [urx - 1, ury - 1]] {
            expect(0, &with(place), &format!("rectangle {a} in {b}"));
        }
        for place in [[llx - 1, lly], [llx, lly - 1], [urx, lly], [llx, ury]] {
            expect(4, &with(place), &format!("rectangle {a} out of {b}"));
        }
    }
}

/// A child over all sixteen tiles of its parent, where one tile lacks a row or a column at a side.
#[test]
fn every_hole() {
    let tiles: Vec<[u32; 4]> = (0..16)
        .map(|i| [i % 4 * 5, i / 4 * 5])
        .map(|[x, y]| [x, y, x + 5, y + 5])
        .collect();
    let over = |parent: &[[u32; 4]]| {
        let child = leaf(&[[0, 0, 20, 20]], &[[2, 2]]);
        tree([0, 0, 20, 20], vec![routing(parent, vec![child])])
    };
    expect(0, &over(&tiles), "no hole");
    for (k, side) in (0..16).flat_map(|k| (0..4).map(move |side| (k, side))) {
        let mut parent = tiles.clone();
        parent[k][side] = if side < 2 {
            parent[k][side] + 1
        } else {
            parent[k][side] - 1
        };
        expect(4, &over(&parent), &format!("hole in {k} at side {side}"));
    }
}

/// Each two entries of a leaf in one cell; each entry just out of the leaf's polygon.
#[test]
fn every_entry() {
    let cells: Vec<[u32; 2]> = (0..8).map(|i| [10 + i, 20]).collect();
    let of = |cells: &[[u32; 2]]| tree([9, 19, 19, 22], vec![leaf(&[[10, 20, 18, 21]], cells)]);
    expect(0, &of(&cells), "different cells");
    for (i, j) in pairs(8) {
        let mut equal = cells.clone();
        equal[j] = equal[i];
        expect(4, &of(&equal), &format!("entries {i}, {j} of one cell"));
    }
    for i in 0..8 {
        for outside in [[9, 20], [18, 20], [10, 19], [10, 21], [65535, 65535]] {
            let mut cells = cells.clone();
            cells[i] = outside;
            expect(4, &of(&cells), &format!("entry {i} at {outside:?}"));
        }
    }
}

/// The place of a part's first number: a count of rectangles, then one of items, rectangles from 2
/// on, items from 66 on.
fn part(k: usize) -> usize {
    64 + 128 * k
}

/// A leaf of eight entries and one with a ninth in a cell of its own, up to as many as there is
/// room for.
#[test]
fn nine_entries() {
    let cells: Vec<[u32; 2]> = (0..8).map(|x| [x, 0]).collect();
    let tree = tree([0, 0, 30, 1], vec![leaf(&[[0, 0, 30, 1]], &cells)]);
    let mut index = image(2, Some(&tree), &first_parts(2));
    expect_numbers(0, &index, "eight entries");
    for i in 8..20 {
        index[part(0) + 1] = i as u32 + 1;
        index[part(0) + 66 + 3 * i] = i as u32;
        expect_numbers(4, &index, &format!("{} entries", i + 1));
    }
}

/// A leaf without entries beside a sound one.
#[test]
fn no_entries() {
    let leaves = vec![
        leaf(&[[0, 0, 5, 5]], &[[1, 1]]),
        leaf(&[[5, 0, 9, 5]], &[[6, 1]]),
    ];
    let tree = tree([0, 0, 9, 9], leaves);
    for k in [0, 1] {
        let mut index = image(3, Some(&tree), &first_parts(3));
        expect_numbers(0, &index, "one entry each");
        index[part(k) + 1] = 0;
        index[part(k) + 66..part(k + 1)].fill(0);
        expect_numbers(4, &index, &format!("leaf {k} without entries"));
    }
}

/// A root of eight branches and one with a ninth whose leaf is as sound as the others.
#[test]
fn nine_branches() {
    let branch = |i: u32| leaf(&[[10 * i, 0, 10 * i + 10, 8]], &[[10 * i, 5]]);
    let tree = tree([0, 0, 90, 8], (0..8).map(branch).collect());
    let mut index = image(10, Some(&tree), &[0, 1, 2, 3, 4, 5, 6, 7, 9]);
    expect_numbers(0, &index, "eight branches");
    index.copy_within(part(7)..part(8), part(8));
    index[part(8) + 2] = 80;
    index[part(8) + 4] = 90;
    index[part(8) + 66] = 80;
    index[0] |= 1 << 8;
    index[part(9) + 1] = 9;
    index[part(9) + 66 + 8] = 8;
    expect_numbers(4, &index, "nine branches");
    index[part(9) + 1] = 1;
    index[part(9) + 66..part(9) + 75].fill(0);
    for k in 0..8 {
        index[part(k)..part(k + 1)].fill(0);
    }
    index[0] = 1 << 8 | 1 << 9;
    index[part(9) + 66] = 8;
    expect_numbers(0, &index, "the ninth alone");
}

/// A leaf of sixteen rectangles, and one whose count is 17: its first entries would be the
/// seventeenth.
#[test]
fn seventeen_rectangles() {
    let rectangles: Vec<[u32; 4]> = (0..16).map(|i| [i, 0, i + 1, 9]).collect();
    let mut tree = tree([0, 0, 16, 9], vec![leaf(&rectangles, &[[1, 1], [2, 2]])]);
    if let Node::Routing(root) = &mut tree.root {
        if let Node::Leaf(leaf) = &mut root.branches[0].child {
            leaf.entries[0].tag = 3;
        }
    }
    let mut index = image(2, Some(&tree), &first_parts(2));
    expect_numbers(0, &index, "sixteen rectangles");
    assert_eq!(index[part(0) + 66..part(0) + 70], [1, 1, 3, 2]);
    index[part(0)] = 17;
    expect_numbers(4, &index, "seventeen rectangles");
}
