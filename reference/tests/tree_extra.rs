//! Document 02's request A.2 in the second implementation: the worked numbers, extra area counted in
//! two ways, the choice of step 2.

mod support;

use reference::geometry::{Cell, Rectangle};
use reference::random::Random;
use reference::tree::{extra_area, insert, Index, Tree};
use support::build::{entry, polygon};
use support::checked::{Checked, Command};
use support::choices::{
    arm_and_bars, choices, WORKED_AFTER, WORKED_BY_AREA, WORKED_CELLS, WORKED_FIRST, WORKED_SECOND,
};
use support::extra::{by_area, by_cuts, pieces};
use support::nested::bars_inside;
use support::splitting::settle;
use support::trace::{trace, trace_by, Sizes};
use support::{say, seed, GRID_END};

/// The extra areas of the polygon's first rectangles, and those by area alone.
fn check_extras(name: &str, rectangles: &[[u32; 4]], cell: Cell, extras: &[u64], alone: &[u64]) {
    let polygon = polygon(rectangles);
    for ((&r, &extra), &alone) in polygon.iter().zip(extras).zip(alone) {
        assert_eq!(extra_area(&polygon, r, cell), extra, "{name}: {r:?}");
        assert_eq!(by_cuts(&polygon, r, cell), extra, "{name}: {r:?}");
        assert_eq!(by_area(&polygon, r, cell), alone, "{name}: {r:?}");
    }
}

#[test]
fn worked_extra_areas() {
    let legs = [[0, 0, 10, 1], [0, 0, 1, 10]];
    check_extras("A2.1", &legs, [9, 9], &[81, 81], &[90, 90]);
    let bridge = [[0, 0, 2, 10], [4, 0, 6, 10], [2, 0, 4, 2]];
    check_extras("A2.2", &bridge, [3, 9], &[16, 8, 16], &[20, 10, 16]);
    let twice = [[2, 2, 4, 4]; 2];
    check_extras("A2.3", &twice, [4, 3], &[2, 2], &[2, 2]);
    let one = [[2, 2, 4, 4]];
    check_extras("G5", &one, [4, 3], &[2], &[2]);
    check_extras("G6", &one, [3, 3], &[0], &[0]);
    let most = [4_294_967_295];
    check_extras("all but one", &[[0, 0, 1, 1]], [65535; 2], &most, &most);
}

/// A2.5: the polygon cuts the grown rectangle into 272 pieces, which no limit forbids.
#[test]
fn more_pieces_than_a_list_holds() {
    let (cell, extra, alone) = ([60_000, 60_000], 3_599_970_001, 3_600_090_001);
    check_extras("A2.5", &arm_and_bars(0), cell, &[extra], &[alone]);
    for more in [0, 20_000] {
        let polygon = polygon(&arm_and_bars(more));
        assert_eq!(pieces(&polygon, polygon[0], cell).len(), 272);
    }
}

/// The tree's two leaves have these polygons.
fn check_leaves(tree: &Tree, first: &[[u32; 4]], second: &[[u32; 4]]) {
    assert_eq!(tree.polygons()[1..], [polygon(first), polygon(second)]);
}

/// A2.4: the second rectangle lacks 4 cells, one of which a sibling has. By area alone the first one
/// would grow, and a point query of (0, 6) would have two visits.
#[test]
fn worked_stream() {
    let [cells @ .., last] = WORKED_CELLS;
    let mut checked = Checked::new(64, "A2.4".to_string());
    for cell in cells {
        assert_eq!(checked.apply(Command::Insert(cell, 1)), Ok(()));
    }
    let before = checked.index.tree().expect("a tree").clone();
    check_leaves(&before, &WORKED_FIRST, &WORKED_SECOND);
    check_extras("first", &WORKED_FIRST, last, &[6, 4], &[6, 13]);
    check_extras("second", &WORKED_SECOND, last, &[16], &[16]);

    assert_eq!(checked.apply(Command::Insert(last, 1)), Ok(()));
    let after = checked.index.tree().expect("a tree");
    check_leaves(after, &WORKED_AFTER, &WORKED_SECOND);
    let by_area = settle(&trace_by(by_area, &before, entry(last)).unsplit);
    check_leaves(&by_area, &WORKED_BY_AREA, &WORKED_SECOND);
    for (tree, visits) in [(after.clone(), 1), (by_area, 2)] {
        let answer = Index::with_tree(3, Some(tree)).point([0, 6]);
        assert_eq!(answer.map(|a| a.visits), Ok(visits));
    }
}

/// The trees worked out by hand.
#[test]
fn choices_by_hand() {
    for choice in choices() {
        let name = choice.name;
        let mut checked = Checked::from_tree(256, Some(choice.before), name.to_string());
        let insertion = Command::Insert(choice.cell, entry(choice.cell).tag);
        assert_eq!(checked.apply(insertion), Ok(()), "{name}");
        assert_eq!(checked.index.tree(), Some(&choice.after), "{name}");
    }
}

/// A sibling's bars inside the grown rectangle. By area alone each of these insertions is accepted,
/// with one piece.
#[test]
fn bars_of_a_sibling_inside() {
    let one_piece = Sizes {
        after_cut: 1,
        after_common_parts: 1,
        refined: 2,
        inside: 0,
        levels: 1,
    };
    for inside in bars_inside() {
        let (name, tree, entry) = (&inside.name, &inside.tree, entry(inside.cell));
        let after = insert(Some(tree), entry);
        let grown = after.map(|after| after.tree.polygons()[1].to_vec());
        assert_eq!(grown, inside.expected, "{name}");
        let sizes = trace(tree, entry).sizes;
        assert_eq!(sizes.after_cut, inside.pieces, "{name}");
        assert_eq!(sizes.refined, inside.refined, "{name}");
        let alone = trace_by(by_area, tree, entry);
        assert_eq!((alone.limit, alone.sizes), (None, one_piece), "{name}");
    }
}

/// A rectangle whose borders may coincide with those of others.
fn random_rectangle(random: &mut Random) -> Rectangle {
    let few = [0, 1, 2, GRID_END / 2, GRID_END - 1, GRID_END];
    loop {
        let [a, b] = [0, 1].map(|_| {
            [0, 1].map(|_| match random.one_in(2) {
                true => random.pick(&few),
                false => random.between(0, GRID_END),
            })
        });
        let r = Rectangle {
            ll: [0, 1].map(|d| a[d].min(b[d])),
            ur: [0, 1].map(|d| a[d].max(b[d])),
        };
        if r.is_valid() {
            return r;
        }
    }
}

/// Random polygons of the whole grid, the number counted over blocks and by cuts. For a polygon of
/// one rectangle both are 'new area minus old'.
#[test]
fn two_ways_on_the_whole_grid() {
    let seed = seed();
    let mut less = 0;
    for case in 0..POLYGONS {
        let mut random = Random::for_case(seed, 110, case);
        let count = random.between(1, 16);
        let polygon: Vec<Rectangle> = (0..count).map(|_| random_rectangle(&mut random)).collect();
        let cell = [0, 1].map(|_| random.between(0, GRID_END - 1));
        let place = format!("LINTZOGER_SEED={seed}, case {case}: {polygon:?} takes {cell:?}");
        for &r in &polygon {
            let extra = extra_area(&polygon, r, cell);
            assert_eq!(extra, by_cuts(&polygon, r, cell), "{place}");
            let alone = by_area(&polygon, r, cell);
            assert_eq!(extra_area(&[r], r, cell), alone, "{place}");
            less += u64::from(extra < alone);
        }
    }
    say(&format!(
        "extra area: {less} rectangles lack less than they grow"
    ));
    assert!(less >= POLYGONS, "{less} rectangles of {POLYGONS} polygons");
}

const POLYGONS: u64 = 5_000;
