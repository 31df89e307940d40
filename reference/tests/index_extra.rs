//! Document 02's request A.2 through the proved library, compared with the second implementation: the
//! worked stream and trees built by hand. index_streams has streams in which step 2 by area alone
//! would often give other trees, index_change_limits the limits.

mod memory_support;
mod support;

use memory_support::calls::Session;
use memory_support::images::any_image;
use memory_support::work_areas::{Dirt, DIRTS};
use reference::geometry::Rectangle;
use reference::random::Random;
use reference::tree::Tree;
use support::build::{polygon, tag};
use support::checked::Command;
use support::choices::{choices, WORKED_AFTER, WORKED_CELLS, WORKED_SECOND};
use support::nested::bars_inside;
use support::seed;

/// A2.4, with the point query that tells it from step 2 by area alone.
#[test]
fn worked_stream() {
    let mut session = Session::fresh(64, Dirt::Noise, "A2.4".to_string());
    for cell in WORKED_CELLS {
        session.expect(Command::Insert(cell, 1), 0);
    }
    let leaves = [polygon(&WORKED_AFTER), polygon(&WORKED_SECOND)];
    assert_eq!(session.tree().expect("a tree").polygons()[1..], leaves);
    session.expect(Command::Point([0, 6]), 0);
    session.expect(Command::Window(Rectangle::new(0, 4, 1, 7), 3), 0);
}

/// The tree in a memory of its own, with a part more than it has nodes.
fn session_of(tree: &Tree, dirt: Dirt, name: &str) -> Session {
    let mut random = Random::new(seed());
    let image = any_image(tree.nodes() + 1, Some(tree), &mut random);
    Session::of_image(&image, dirt, format!("LINTZOGER_SEED={}, {name}", seed()))
}

#[test]
fn choices_by_hand() {
    for choice in choices() {
        for dirt in DIRTS {
            let mut session = session_of(&choice.before, dirt, choice.name);
            session.expect(Command::Insert(choice.cell, tag(choice.cell)), 0);
            assert_eq!(session.tree(), Some(&choice.after), "{}", choice.name);
        }
    }
}

/// 1 to 16 bars of a sibling inside the grown rectangle.
#[test]
fn bars_of_a_sibling_inside() {
    for inside in bars_inside() {
        for dirt in DIRTS {
            let mut session = session_of(&inside.tree, dirt, &inside.name);
            let answer = if inside.expected.is_ok() { 0 } else { 7 };
            session.expect(Command::Insert(inside.cell, 99), answer);
            let after = session.tree().expect("a tree").polygons();
            match &inside.expected {
                Ok(grown) => assert_eq!(after[1], grown, "{}", inside.name),
                Err(_) => assert_eq!(after, inside.tree.polygons(), "{}", inside.name),
            }
        }
    }
}
