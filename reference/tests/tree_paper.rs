//! Document 01's cases of the index: G10 to G12, N = 1, N = 3.

mod support;

use reference::geometry::Rectangle;
use reference::tree::{Index, Limit, Node, PointAnswer, Refusal, Tree, WindowAnswer};
use support::checked::{Checked, Command};

fn insert_all(checked: &mut Checked, cells: &[[u32; 2]]) -> Vec<Result<(), Refusal>> {
    let insert = |(i, &cell)| checked.apply(Command::Insert(cell, i as u32));
    cells.iter().enumerate().map(insert).collect()
}

fn g10_cells() -> Vec<[u32; 2]> {
    (0..9).map(|x| [x, 5]).collect()
}

/// The polygons and cells of a root's two leaves.
fn two_leaves(tree: &Tree) -> [(Vec<Rectangle>, Vec<[u32; 2]>); 2] {
    let Node::Routing(root) = &tree.root else {
        panic!("the root is a leaf");
    };
    let leaf = |at: usize| {
        let branch = &root.branches[at];
        let cells = branch.child.entries().iter().map(|e| e.cell).collect();
        (branch.polygon.clone(), cells)
    };
    assert_eq!(root.branches.len(), 2);
    [leaf(0), leaf(1)]
}

#[test]
fn g10_splits_at_5() {
    for n in [3, 4, 64, 256] {
        let mut checked = Checked::new(n, "G10".to_string());
        assert_eq!(insert_all(&mut checked, &g10_cells()), [Ok(()); 9]);
        let tree = checked.index.tree().expect("a tree");
        assert_eq!(tree.rectangle, Rectangle::new(0, 5, 9, 6));
        let left = (0..5).map(|x| [x, 5]).collect();
        let right = (5..9).map(|x| [x, 5]).collect();
        let expected = [
            (vec![Rectangle::new(0, 5, 5, 6)], left),
            (vec![Rectangle::new(5, 5, 9, 6)], right),
        ];
        assert_eq!(two_leaves(tree), expected);
    }
}

#[test]
fn g10_with_fewer_nodes_is_refused() {
    for n in [1, 2] {
        let mut checked = Checked::new(n, "G10".to_string());
        let answers = insert_all(&mut checked, &g10_cells());
        assert_eq!(answers[..8], [Ok(()); 8]);
        assert_eq!(answers[8], Err(Refusal::TooManyNodes));
        assert_eq!(checked.held().len(), 8);
    }
}

#[test]
fn g11_splits_at_2() {
    let cells: Vec<[u32; 2]> = (0..9).map(|i| [i / 3, i % 3]).collect();
    let mut checked = Checked::new(3, "G11".to_string());
    assert_eq!(insert_all(&mut checked, &cells), [Ok(()); 9]);
    let expected = [
        (vec![Rectangle::new(0, 0, 2, 3)], cells[..6].to_vec()),
        (vec![Rectangle::new(2, 0, 3, 3)], cells[6..].to_vec()),
    ];
    assert_eq!(two_leaves(checked.index.tree().expect("a tree")), expected);
}

#[test]
fn g12_empty_index() {
    for n in [1, 64, 256] {
        let index = Index::new(n);
        let not_held = PointAnswer {
            tag: None,
            visits: 0,
        };
        assert_eq!(index.point([0, 0]), Ok(not_held));
        assert_eq!(index.point([65535, 65535]), Ok(not_held));
        let nothing = WindowAnswer {
            matches: 0,
            visits: 0,
        };
        let all = Rectangle::new(0, 0, 65536, 65536);
        assert_eq!(index.window(all, &mut []), Ok(nothing));
        assert_eq!((index.held(), index.height()), (0, 0));
    }
}

#[test]
fn n_1_holds_eight() {
    let mut checked = Checked::new(1, "N = 1".to_string());
    let cells: Vec<[u32; 2]> = (0..8).map(|i| [7000 * i, 65535 - 9000 * (i % 5)]).collect();
    assert_eq!(insert_all(&mut checked, &cells), [Ok(()); 8]);
    let ninth = Command::Insert([1, 2], u32::MAX);
    assert_eq!(checked.apply(ninth), Err(Refusal::TooManyNodes));
    assert_eq!(checked.apply(Command::Remove(cells[3])), Ok(()));
    assert_eq!(checked.apply(ninth), Ok(()));
    assert_eq!(
        checked.apply(Command::Insert(cells[3], 0)),
        Err(Refusal::TooManyNodes)
    );
}

/// 'A list of length 0 is long enough for 0 matches'; refusal 9 reports the matches.
#[test]
fn short_lists() {
    let mut index = Index::new(1);
    for x in 0..4 {
        index.insert([x, 0], 7 + x).expect("room");
    }
    let some = Rectangle::new(1, 0, 4, 65536);
    for length in 0..9 {
        let mut list = vec![5; length];
        let short = Refusal::ShortList { matches: 3 };
        assert_eq!(index.window(some, &mut list), Err(short));
        assert_eq!(list, vec![5; length]);
    }
    let mut list = vec![5; 10];
    let answer = WindowAnswer {
        matches: 3,
        visits: 1,
    };
    assert_eq!(index.window(some, &mut list), Ok(answer));
    assert_eq!(list, [1, 0, 8, 2, 0, 9, 3, 0, 10, 5]);
    let none = Rectangle::new(4, 0, 65536, 65536);
    let no_match = WindowAnswer {
        matches: 0,
        visits: 0,
    };
    assert_eq!(index.window(none, &mut []), Ok(no_match));
}

#[test]
fn numbers_of_the_refusals() {
    let numbers = [
        (Refusal::Invalid, 3),
        (Refusal::Held, 5),
        (Refusal::NotHeld, 6),
        (Refusal::OverLimit(Limit::AfterCut), 7),
        (Refusal::OverLimit(Limit::AfterCommonParts), 7),
        (Refusal::OverLimit(Limit::Refined), 7),
        (Refusal::TooManyNodes, 8),
        (Refusal::ShortList { matches: 1 }, 9),
        (Refusal::NothingHeld, 10),
    ];
    for (refusal, number) in numbers {
        assert_eq!(refusal.number(), number, "{refusal:?}");
    }
}

/// The first cause in number order is given.
#[test]
fn order_of_the_refusals() {
    let mut index = Index::new(1);
    for x in 0..8 {
        index.insert([x, 0], 0).expect("room");
    }
    assert_eq!(index.insert([65536, 0], 0), Err(Refusal::Invalid));
    assert_eq!(index.insert([0, 65536], 0), Err(Refusal::Invalid));
    assert_eq!(index.insert([3, 0], 0), Err(Refusal::Held));
    assert_eq!(index.insert([8, 0], 0), Err(Refusal::TooManyNodes));
    assert_eq!(index.remove([65536, 0]), Err(Refusal::Invalid));
    assert_eq!(index.remove([8, 0]), Err(Refusal::NotHeld));
    let bad = Rectangle::new(0, 0, 65537, 1);
    assert_eq!(index.window(bad, &mut []), Err(Refusal::Invalid));
}
