//! Refusal 7 through the proved library: each of step 2's three limits, just below and just above
//! it, at the first level and below others that grow first. The index is as it was, the work area
//! zeros; the session compares both.

mod memory_support;
mod support;

use memory_support::built::below;
use memory_support::calls::Session;
use memory_support::images::{any_image, nodes};
use memory_support::work_areas::{Dirt, DIRTS};
use reference::geometry::Cell;
use reference::random::Random;
use reference::tree::Tree;
use support::checked::{Checked, Command};
use support::inside::limits_inside;
use support::limits::{
    across, around_the_limit, below_a_parent, filled_bars, over_bars, pieces, row_after_the_bars,
    rungs, ACROSS_CELL, INSIDE_256, INSIDE_257, PARTS_256, PARTS_258, PIECES_256, PIECES_257,
    REFINED_16, REFINED_17,
};
use support::nested::CELL;
use support::{cut_by_siblings, grown_leaves, seed};

/// The commands that built the index, in a session of their own from a fresh index of n parts; then
/// the insertion, with this answer for every kind of work area.
fn replay(built: &Checked, cell: Cell, n: usize, answer: u32) {
    for dirt in DIRTS {
        let label = format!("built, N = {n}, {dirt:?}");
        let mut session = Session::fresh(n, dirt, label);
        for &command in &built.commands {
            session.expect(command, 0);
        }
        finish(session, cell, answer);
    }
}

/// The insertion into images of the tree.
fn insert_into(tree: &Tree, cell: Cell, n: usize, answer: u32) {
    let mut random = Random::new(seed());
    for dirt in DIRTS {
        let image = any_image(n, Some(tree), &mut random);
        let label = format!("built tree, N = {n}, {dirt:?}");
        finish(Session::of_image(&image, dirt, label), cell, answer);
    }
}

/// The insertion; after a refusal it is refused again, and a removal is accepted as before.
fn finish(mut session: Session, cell: Cell, answer: u32) {
    session.expect(Command::Insert(cell, 5), answer);
    if answer != 0 {
        session.expect(Command::Insert(cell, 6), answer);
    }
    session.expect(Command::Point(cell), 0);
    let held = session.held()[0].cell;
    session.expect(Command::Remove(held), 0);
}

fn tree_of(built: &Checked) -> Tree {
    built.index.tree().cloned().expect("a tree")
}

#[test]
fn pieces_after_a_cut() {
    for (counts, answer) in [(PIECES_256, 0), (PIECES_257, 7)] {
        let (built, cell) = filled_bars(&counts);
        replay(&built, cell, 7, answer);
        replay(&built, cell, 256, answer);
    }
}

#[test]
fn pieces_around_the_limit() {
    for counts in around_the_limit() {
        let (built, cell) = filled_bars(&counts);
        let answer = if pieces(&counts) <= 256 { 0 } else { 7 };
        replay(&built, cell, 7, answer);
    }
}

/// The limit is tested after a cut by one rectangle, not only after a sibling. The tree is changed
/// by hand.
#[test]
fn limit_after_every_rectangle() {
    for (counts, answer) in [(PIECES_256, 0), (PIECES_257, 7)] {
        let (built, cell) = filled_bars(&counts);
        let tree = row_after_the_bars(tree_of(&built));
        insert_into(&tree, cell, 7, answer);
    }
}

/// 256 parts pass the limit of the common parts, and the refined polygon is then over its own; 258
/// do not. Both are refusal 7, two levels below the root.
#[test]
fn pieces_after_the_common_parts() {
    for counts in [PARTS_256, PARTS_258] {
        let (built, cell) = below_a_parent(&counts);
        replay(&built, cell, 12, 7);
    }
}

/// Built by hand: 256 common parts are accepted; 257 and more are not, although the refined polygon
/// is small.
#[test]
fn common_parts_of_a_built_tree() {
    let mut tops = vec![20_005; 14];
    insert_into(&across(&tops), ACROSS_CELL, 5, 0);
    for top in [21_890, 21_505, 20_005] {
        tops.truncate(14);
        tops.push(top);
        insert_into(&across(&tops), ACROSS_CELL, 5, 7);
    }
}

/// 16 rectangles are accepted on the way, 17 are not.
#[test]
fn refined_polygon() {
    let (built, cell) = rungs();
    replay(&built, cell, 6, 7);
    replay(&built, cell, 64, 7);
}

/// '7 before 8', and 8 where the limit is just not passed.
#[test]
fn limit_before_nodes() {
    for (counts, answer) in [(PIECES_256, 8), (PIECES_257, 7)] {
        let (mut built, cell) = filled_bars(&counts);
        grown_leaves::put_all(
            &mut built,
            &grown_leaves::eight(cut_by_siblings::EDGE, 0)[1..],
        );
        let tree = tree_of(&built);
        insert_into(&tree, cell, nodes(Some(&tree)), answer);
    }
}

/// All levels above grow before the limit is met at the lowest.
#[test]
fn limit_at_a_low_level() {
    for (counts, answer) in [(PIECES_256, 0), (PIECES_257, 7)] {
        let (built, cell) = filled_bars(&counts);
        let tree = tree_of(&built);
        assert!(!tree.rectangle.has(cell), "the root grows");
        for levels in [1, 2, 50, 240] {
            insert_into(&below(&tree, levels), cell, 256, answer);
        }
    }
}

/// A leaf grows over bars of its sibling: each cause just below and just above, also below other
/// levels.
#[test]
fn bars_inside_the_grown_rectangle() {
    for limited in limits_inside() {
        let answer = if limited.limit.is_some() { 7 } else { 0 };
        for levels in [0, 1, 60] {
            insert_into(&below(&limited.tree, levels), CELL, 70, answer);
        }
    }
}

/// The same by streams from a fresh index. With 256 pieces it is the refined polygon that refuses.
#[test]
fn streams_to_bars_inside() {
    let cases: [(&[u32], u32); 4] = [
        (&REFINED_16, 0),
        (&REFINED_17, 7),
        (&INSIDE_256, 7),
        (&INSIDE_257, 7),
    ];
    for (reaches, answer) in cases {
        let (built, cell) = over_bars(reaches);
        replay(&built, cell, 5, answer);
    }
}

/// All causes one after another in one index, which is then emptied.
#[test]
fn one_index() {
    let (built, cell) = filled_bars(&PIECES_257);
    let mut session = Session::fresh(64, Dirt::Small, "one index".to_string());
    for &command in &built.commands {
        session.expect(command, 0);
    }
    session.expect(Command::Insert(cell, 1), 7);
    session.expect(Command::Clear, 0);
    let (built, cell) = rungs();
    for &command in &built.commands {
        session.expect(command, 0);
    }
    session.expect(Command::Insert(cell, 1), 7);
    session.remove_all(&mut Random::new(seed()));
}
