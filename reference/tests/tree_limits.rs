//! Built cases for refusal 7: each of step 2's three limits, just below and just above it. They come
//! from a fresh index by insertions and removals alone; where a tree is built or changed by hand,
//! the test says so.

mod support;

use reference::tree::{Limit, Refusal, Tree};
use support::build::entry;
use support::checked::{Checked, Command};
use support::extra::by_area;
use support::inside::limits_inside;
use support::limits::{
    across, around_the_limit, below_a_parent, filled_bars, over_bars, pieces, row_after_the_bars,
    rungs, sizes, ACROSS_CELL, INSIDE_256, INSIDE_257, PARTS_256, PARTS_258, PIECES_256,
    PIECES_257, REFINED_16, REFINED_17,
};
use support::lines::{answers, line};
use support::nested::CELL;
use support::trace::{trace_by, Sizes};
use support::{cut_by_siblings, grown_leaves};

fn insert(checked: &mut Checked, cell: [u32; 2]) -> Result<(), Refusal> {
    checked.apply(Command::Insert(cell, 0))
}

/// 256 pieces in the middle of the cuts are accepted, and 257 are refused, although the filled
/// rows leave few pieces at the end.
#[test]
fn pieces_after_a_cut() {
    let (mut checked, cell) = filled_bars(&PIECES_256);
    let largest = Sizes {
        after_cut: 256,
        after_common_parts: 31,
        refined: 13,
        inside: 0,
        levels: 1,
    };
    assert_eq!(sizes(&checked, cell), largest);
    assert_eq!(insert(&mut checked, cell), Ok(()));
    assert_eq!(checked.largest.after_cut, 256);

    let (mut checked, cell) = filled_bars(&PIECES_257);
    let over = Refusal::OverLimit(Limit::AfterCut);
    assert_eq!(insert(&mut checked, cell), Err(over));
    checked.tally.require(1, &["I refused 7 after a cut"]);
}

/// The same over a range of bars: each insertion is accepted exactly if its pieces are at most 256.
#[test]
fn pieces_around_the_limit() {
    let mut seen = Vec::new();
    for counts in around_the_limit() {
        let (mut checked, cell) = filled_bars(&counts);
        let over = Refusal::OverLimit(Limit::AfterCut);
        let expected = if pieces(&counts) <= 256 {
            Ok(())
        } else {
            Err(over)
        };
        assert_eq!(insert(&mut checked, cell), expected, "{counts:?}");
        seen.push(pieces(&counts));
    }
    assert!((253..=260).all(|number| seen.contains(&number)), "{seen:?}");
}

/// The limit is tested 'after a cut by one rectangle', not only after a sibling: the last rectangle
/// of the same sibling would leave fewer pieces. The tree is changed by hand.
#[test]
fn limit_after_every_rectangle() {
    let over = Refusal::OverLimit(Limit::AfterCut);
    for (counts, expected) in [(PIECES_256, Ok(())), (PIECES_257, Err(over))] {
        let (checked, cell) = filled_bars(&counts);
        let changed = row_after_the_bars(checked.index.tree().cloned().expect("a tree"));
        let mut checked = Checked::from_tree(7, Some(changed), "row after bars".to_string());
        assert_eq!(sizes(&checked, cell).after_cut, pieces(&counts));
        assert_eq!(insert(&mut checked, cell), expected);
    }
}

/// `bench` gives the same answers to the built streams.
#[test]
fn lines_of_the_built_streams() {
    for (counts, last) in [(PIECES_256, "I 0 7 2124"), (PIECES_257, "I ! 7")] {
        let (mut checked, cell) = filled_bars(&counts);
        let _ = insert(&mut checked, cell);
        let input: String = checked.commands.iter().map(line).collect();
        let output = answers(input.as_bytes());
        assert_eq!(output.lines().count(), checked.commands.len());
        assert_eq!(output.lines().last(), Some(last));
    }
}

/// '7 before 8': with nine entries in the growing leaf and no node left, the limit comes first.
#[test]
fn limit_before_nodes() {
    for (counts, refusal) in [
        (PIECES_256, Refusal::TooManyNodes),
        (PIECES_257, Refusal::OverLimit(Limit::AfterCut)),
    ] {
        let (mut checked, cell) = filled_bars(&counts);
        grown_leaves::put_all(
            &mut checked,
            &grown_leaves::eight(cut_by_siblings::EDGE, 0)[1..],
        );
        let full = checked.index.tree().cloned();
        let nodes = full.as_ref().map_or(0, Tree::nodes);
        let mut checked = Checked::from_tree(nodes, full, "no node left".to_string());
        assert_eq!(insert(&mut checked, cell), Err(refusal));
    }
}

/// The parent's polygon has two rectangles over all of the bars, so each piece gives two parts.
/// 256 parts pass this limit (and the refined polygon is then over its own), 258 do not.
#[test]
fn pieces_after_the_common_parts() {
    let common = Limit::AfterCommonParts;
    for (counts, parts, limit) in [(PARTS_256, 256, Limit::Refined), (PARTS_258, 258, common)] {
        let (mut checked, cell) = below_a_parent(&counts);
        let sizes = sizes(&checked, cell);
        assert_eq!(sizes.after_cut, pieces(&counts));
        assert_eq!(sizes.after_common_parts, parts);
        assert_eq!(insert(&mut checked, cell), Err(Refusal::OverLimit(limit)));
        assert_eq!(checked.index.height(), 3);
    }
}

/// Built by hand, as a sound tree: the bars leave 16 pieces of 16 parts each, which is accepted.
/// One part more is refused, although the refined polygon is small.
#[test]
fn common_parts_of_a_built_tree() {
    let cell = ACROSS_CELL;
    let mut tops = vec![20_005; 14];
    let mut checked = Checked::from_tree(5, Some(across(&tops)), "across".to_string());
    let largest = sizes(&checked, cell);
    assert_eq!((largest.after_cut, largest.after_common_parts), (16, 256));
    assert_eq!(insert(&mut checked, cell), Ok(()));
    assert_eq!(checked.largest.after_common_parts, 256);

    // Above this bar there is no rectangle of the parent but the block.
    for (top, parts) in [(21_890, 257), (21_505, 258), (20_005, 272)] {
        tops.truncate(14);
        tops.push(top);
        let mut checked = Checked::from_tree(5, Some(across(&tops)), "across".to_string());
        assert_eq!(sizes(&checked, cell).after_common_parts, parts);
        let over = Refusal::OverLimit(Limit::AfterCommonParts);
        assert_eq!(insert(&mut checked, cell), Err(over));
    }
}

/// A leaf's polygon gets one rectangle more with each rung: 16 are accepted, 17 are not.
#[test]
fn refined_polygon() {
    let (mut checked, cell) = rungs();
    assert_eq!(sizes(&checked, cell).refined, 17);
    let over = Refusal::OverLimit(Limit::Refined);
    assert_eq!(insert(&mut checked, cell), Err(over));
    let tally = &checked.tally;
    tally.require(1, &["I accepted, refined polygon of 16"]);
    tally.require(1, &["I refused 7, refined polygon"]);
}

/// By area alone step 2 has one piece and passes no limit.
fn check_by_area(tree: &Tree, cell: [u32; 2], name: &str) {
    let alone = trace_by(by_area, tree, entry(cell));
    assert_eq!((alone.limit, alone.sizes.after_cut), (None, 1), "{name}");
}

/// Built by hand, as sound trees: a leaf grows over bars of its sibling, which it does by request A.2
/// only.
#[test]
fn bars_inside_the_grown_rectangle() {
    for limited in limits_inside() {
        let (name, tree) = (limited.name, limited.tree);
        check_by_area(&tree, CELL, name);
        let mut checked = Checked::from_tree(7, Some(tree), name.to_string());
        let sizes = sizes(&checked, CELL);
        let sizes = [sizes.after_cut, sizes.after_common_parts, sizes.refined];
        assert_eq!(sizes, limited.sizes, "{name}");
        let expected = limited
            .limit
            .map_or(Ok(()), |limit| Err(Refusal::OverLimit(limit)));
        assert_eq!(insert(&mut checked, CELL), expected, "{name}");
    }
}

/// The same by built streams. 256 pieces pass the limit after the cuts, and the refined polygon is
/// then over its own.
#[test]
fn streams_to_bars_inside() {
    let cases: [(&[u32], _, _); 4] = [
        (&REFINED_16, [27, 16], None),
        (&REFINED_17, [36, 17], Some(Limit::Refined)),
        (&INSIDE_256, [256, 47], Some(Limit::Refined)),
        (&INSIDE_257, [257, 0], Some(Limit::AfterCut)),
    ];
    for (reaches, expected, limit) in cases {
        let (mut checked, cell) = over_bars(reaches);
        let name = format!("{reaches:?}");
        check_by_area(checked.index.tree().expect("a tree"), cell, &name);
        let sizes = sizes(&checked, cell);
        assert_eq!([sizes.after_cut, sizes.refined], expected, "{name}");
        let expected = limit.map_or(Ok(()), |limit| Err(Refusal::OverLimit(limit)));
        assert_eq!(insert(&mut checked, cell), expected, "{name}");
    }
}
