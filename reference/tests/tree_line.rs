//! The routing node's line, compared with document 01's sentence tried over every whole l.

mod support;

use reference::geometry::Rectangle;
use reference::random::Random;
use reference::tree::{leaf_line, routing_line, Branch, Entry, Line, Node};
use support::{say, seed};

/// A branch over a leaf or over leaves with these cells. Polygons play no part in the line.
fn branch(cells: &[[u32; 2]], levels: usize) -> Branch {
    let polygon = vec![Rectangle::new(0, 0, 65536, 65536)];
    let entries = cells.iter().map(|&cell| Entry { cell, tag: 0 }).collect();
    let leaf = Branch {
        child: Node::leaf(entries),
        polygon: polygon.clone(),
    };
    if levels == 0 {
        return leaf;
    }
    let half = cells.len().div_ceil(2);
    let parts = cells.chunks(half).map(|part| branch(part, levels - 1));
    Branch {
        child: Node::routing(parts.collect()),
        polygon,
    }
}

/// The definition over all l: the best of (on both sides, dimension, l) among the fitting lines.
fn line_by_definition(branches: &[Vec<[u32; 2]>]) -> Option<Line> {
    let mut best: Option<(usize, usize, u32)> = None;
    for dimension in 0..2 {
        for l in 1..=65535 {
            let left = |cells: &[[u32; 2]]| cells.iter().any(|c| c[dimension] < l);
            let right = |cells: &[[u32; 2]]| cells.iter().any(|c| c[dimension] >= l);
            let lefts = branches.iter().filter(|b| left(b)).count();
            let rights = branches.iter().filter(|b| right(b)).count();
            let both = branches.iter().filter(|b| left(b) && right(b)).count();
            if (1..=8).contains(&lefts) && (1..=8).contains(&rights) {
                let line = (both, dimension, l);
                best = Some(best.map_or(line, |b| b.min(line)));
            }
        }
    }
    best.map(|(_, dimension, l)| Line { dimension, l })
}

/// Nine lists of cells, made so that some branches overlap others in each dimension.
fn random_branches(random: &mut Random) -> Vec<Vec<[u32; 2]>> {
    let side = random.pick(&[4, 12, 40, 1000, 65536]);
    let corner = [0, 1].map(|_| random.pick(&[0, 1, 65536 - side]).min(65536 - side));
    let spread = random.pick(&[1, 2, side / 4 + 1, side]);
    (0..9)
        .map(|_| {
            let first = corner.map(|c| c + random.between(0, side - 1));
            let cell =
                |random: &mut Random| first.map(|f| (f + random.between(0, spread - 1)).min(65535));
            (0..random.between(1, 5)).map(|_| cell(random)).collect()
        })
        .collect()
}

#[test]
fn line_is_the_best_of_all_lines() {
    let seed = seed();
    let (mut fitting, mut both_sides, mut in_y) = (0, 0, 0);
    for case in 0..300 {
        let mut random = Random::for_case(seed, 500, case);
        let cells = random_branches(&mut random);
        let Some(expected) = line_by_definition(&cells) else {
            continue;
        };
        let levels = random.between(0, 2) as usize;
        let branches: Vec<Branch> = cells.iter().map(|c| branch(c, levels)).collect();
        let line = routing_line(&branches);
        assert_eq!(
            line, expected,
            "LINTZOGER_SEED={seed}, case {case}: {cells:?}"
        );
        fitting += 1;
        in_y += u32::from(line.dimension == 1);
        let coordinates = |b: &[[u32; 2]]| b.iter().map(|c| c[line.dimension]).collect::<Vec<_>>();
        both_sides += u32::from(cells.iter().any(|b| {
            let v = coordinates(b);
            v.iter().any(|&v| v < line.l) && v.iter().any(|&v| v >= line.l)
        }));
    }
    say(&format!(
        "lines: {fitting} fitting, {in_y} in y, {both_sides} with a branch on both sides"
    ));
    assert!(fitting >= 100 && in_y >= 5 && both_sides >= 5);
}

/// Lines at both ends of the grid.
#[test]
fn first_and_last_line() {
    let mut cells: Vec<Vec<[u32; 2]>> = (0..8).map(|_| vec![[5, 9], [65535, 9]]).collect();
    cells.push(vec![[0, 9]]);
    let branches: Vec<Branch> = cells.iter().map(|c| branch(c, 0)).collect();
    assert_eq!(routing_line(&branches), Line { dimension: 0, l: 1 });
    let mut cells: Vec<Vec<[u32; 2]>> = (0..8).map(|_| vec![[5, 0], [5, 65534]]).collect();
    cells.push(vec![[5, 65535]]);
    let branches: Vec<Branch> = cells.iter().map(|c| branch(c, 0)).collect();
    let last = Line {
        dimension: 1,
        l: 65535,
    };
    assert_eq!(routing_line(&branches), last);
}

/// Ties go to x, then to the smaller l; fewer on both sides goes before that.
#[test]
fn ties_of_lines() {
    let line = |cells: &[[u32; 2]]| {
        let branches: Vec<Branch> = cells.iter().map(|&c| branch(&[c], 0)).collect();
        routing_line(&branches)
    };
    // On the diagonal every line between two cells has nobody on both sides.
    let diagonal: Vec<[u32; 2]> = (0..9).map(|i| [10 * i + 3, 10 * i + 3]).collect();
    assert_eq!(line(&diagonal), Line { dimension: 0, l: 4 });
    let column: Vec<[u32; 2]> = (0..9).map(|i| [3, 10 * i + 3]).collect();
    assert_eq!(line(&column), Line { dimension: 1, l: 4 });
    // In x each line has a branch on both sides; in y none, but only at a larger l.
    let mut branches: Vec<Branch> = (0..8u32)
        .map(|i| branch(&[[i, 0], [i + 1, 0]], 0))
        .collect();
    branches.push(branch(&[[0, 700], [9, 700]], 0));
    assert_eq!(routing_line(&branches), Line { dimension: 1, l: 1 });
}

#[test]
fn leaf_lines_of_the_paper() {
    let entries = |cells: Vec<[u32; 2]>| -> Vec<Entry> {
        cells
            .into_iter()
            .map(|cell| Entry { cell, tag: 1 })
            .collect()
    };
    let g10 = entries((0..9).map(|x| [x, 5]).collect());
    assert_eq!(leaf_line(&g10), Line { dimension: 0, l: 5 });
    let g11 = entries((0..9).map(|i| [i % 3, i / 3]).collect());
    assert_eq!(leaf_line(&g11), Line { dimension: 0, l: 2 });
    let turned = entries((0..9).map(|y| [5, y]).collect());
    assert_eq!(leaf_line(&turned), Line { dimension: 1, l: 5 });
    // The largest sums: 9 x 65535^2 fits no 32 bits.
    let mut far = vec![[65535, 65535]; 8];
    far.push([65534, 0]);
    let l = (8 * 65535) / 9 + 1;
    assert_eq!(leaf_line(&entries(far)), Line { dimension: 1, l });
}
