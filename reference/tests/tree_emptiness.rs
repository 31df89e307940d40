//! The second implementation's emptiness query on trees: the walk against a look at all entries, its
//! visits against a list of all nodes and against the window query.

mod memory_support;
mod support;

use memory_support::images::tree_of_case;
use memory_support::queries::{numbers_of, window_at};
use memory_support::trees::random_tree;
use reference::geometry::Rectangle;
use reference::random::Random;
use reference::tree::{
    is_empty, stopping_walk, Index, Node, Refusal, StoppingWalk, Tree, WindowAnswer,
};
use support::build::{entry, leaf, rectangle, tree};
use support::sound::{polygon_has, polygon_meets, views};
use support::{say, seed};

#[test]
fn a_look_at_all() {
    let entries = [[7, 5], [5, 7], [3, 5]].map(entry);
    for (window, expected) in [
        ([0, 0, 9, 9], false),
        ([7, 5, 8, 6], false),
        ([3, 5, 4, 6], false),
        ([4, 5, 7, 7], true),
        ([5, 6, 6, 7], true),
        ([8, 5, 9, 6], true),
    ] {
        let given = is_empty(&entries, rectangle(window));
        assert_eq!(given, expected, "{window:?}");
    }
    assert!(is_empty(&[], rectangle([0, 0, 65536, 65536])));
}

/// 3 for what is no window; an empty index has the answer yes without visits.
#[test]
fn refusals() {
    let mut index = Index::new(1);
    for held in [false, true] {
        for window in [
            [5, 5, 5, 6],
            [5, 5, 6, 5],
            [0, 0, 65537, 1],
            [0, 0, 1, 65537],
        ] {
            let answer = index.is_empty(rectangle(window));
            assert_eq!(answer, Err(Refusal::Invalid), "{window:?}");
        }
        let answer = index.is_empty(rectangle([0, 0, 65536, 65536]));
        let answer = answer.expect("the window is the grid");
        let given = (answer.is_empty, answer.visits);
        assert_eq!(given, (!held, usize::from(held)));
        if !held {
            index.insert([9, 9], 4).expect("the index is empty");
        }
    }
}

/// The same leaves in two orders: the walk stops in the first that has a match.
#[test]
fn order_of_the_children() {
    let leaves = [0, 2, 4, 6].map(|x| leaf(&[[x, 0, x + 2, 1]], &[[x, 0]]));
    let window = rectangle([1, 0, 7, 1]);
    let mut branches = leaves.to_vec();
    for visits in [3, 2] {
        let tree = tree([0, 0, 8, 1], branches.clone());
        let walk = stopping_walk(&tree, window);
        let expected = StoppingWalk {
            has_stopped: true,
            visits,
        };
        assert_eq!(walk, expected);
        branches.reverse();
    }
}

/// The nodes that share a cell with the window, in depth-first order, up to the first leaf that has
/// an entry in it. On a sound tree the walk comes to no others.
fn nodes_up_to_match(tree: &Tree, window: Rectangle) -> usize {
    let views = views(tree);
    let met = views.iter().filter(|v| polygon_meets(v.polygon, window));
    let mut count = 0;
    for view in met {
        count += 1;
        if let Node::Leaf(leaf) = view.node {
            let has = |cell| polygon_has(&[window], cell);
            if leaf.entries.iter().any(|e| has(e.cell)) {
                break;
            }
        }
    }
    count
}

/// 'The yes must hold exactly when the window query reports zero matches', and the visits 'never
/// exceed those of the window query'. Returns the nodes that the walk did not enter because of its
/// stop.
fn check_walk(tree: &Tree, window: Rectangle, place: &str) -> usize {
    let place = format!("{place}: {:?}", numbers_of(window));
    let walk = stopping_walk(tree, window);
    let index = Index::with_tree(256, Some(tree.clone()));
    let answer = index.is_empty(window).expect("the window is valid");
    let mut list = vec![0; 3 * index.held()];
    let WindowAnswer { matches, visits } = index.window(window, &mut list).expect("enough");
    assert_eq!(answer.is_empty, !walk.has_stopped, "{place}");
    assert_eq!(
        answer.is_empty,
        is_empty(&tree.entries(), window),
        "{place}"
    );
    assert_eq!(answer.is_empty, matches == 0, "{place}");
    assert_eq!(answer.visits, walk.visits, "{place}");
    assert_eq!(walk.visits, nodes_up_to_match(tree, window), "{place}");
    assert!(walk.visits <= visits, "{place}");
    if walk.has_stopped {
        assert!(walk.visits >= tree.height(), "{place}");
    } else {
        assert_eq!(walk.visits, visits, "{place}");
    }
    visits - walk.visits
}

#[test]
fn the_walk_finds_a_match() {
    let seed = seed();
    let (mut queries, mut shorter) = (0, 0);
    for case in 0..2000 {
        let mut random = Random::for_case(seed, 2700, case);
        let n = random.between(1, 40) as usize;
        let tree = tree_of_case(case, n, &mut random);
        let tree = tree.unwrap_or_else(|| random_tree(n, &mut random));
        let place = format!("LINTZOGER_SEED={seed}, case {case}");
        for _ in 0..30 {
            let window = rectangle(window_at(Some(&tree), &mut random));
            shorter += usize::from(check_walk(&tree, window, &place) > 0);
            queries += 1;
        }
    }
    say(&format!(
        "walks: {queries}, of which {shorter} entered fewer nodes than the window query"
    ));
    assert!(shorter >= 5_000);
}
