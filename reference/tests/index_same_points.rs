//! Request A.14 on the library: the same entries, entered in two orders or by two lists of calls,
//! into two fresh indexes with perhaps different N. Then both are asked the same queries.

mod memory_support;
mod support;

use memory_support::asked::Proved;
use memory_support::calls::Session;
use memory_support::orders::{entries_in, rearranged};
use memory_support::queries::cells_of;
use memory_support::same_points::{Pair, COMPARED, OTHER_ORDER, OTHER_VISITS, REFUSED_ALIKE};
use memory_support::work_areas::DIRTS;
use reference::geometry::{Cell, Rectangle};
use reference::random::Random;
use reference::tree::Entry;
use support::checked::{Checked, Command};
use support::counts::Tally;
use support::limits::{filled_bars, over_bars, rungs, PIECES_257, REFINED_17};
use support::others::refused;
use support::shapes::shuffle;
use support::{say, seed};

fn insertions(list: &[Entry]) -> Vec<Command> {
    let insertion = |e: &Entry| Command::Insert(e.cell, e.tag);
    list.iter().map(insertion).collect()
}

/// The answer to the first insertion that is refused with 7 or 8, else 0.
fn enter(session: &mut Session, list: &[Entry]) -> u32 {
    let mut answers = insertions(list).into_iter().map(|c| session.apply(c));
    answers.find(|&answer| answer != 0).unwrap_or(0)
}

/// A square of that side at an end of the grid or between.
fn square_of(side: u32, random: &mut Random) -> Rectangle {
    let last = 65536 - side;
    let [x, y] = random.pick(&[[0, 0], [last, last], [40, 3]]);
    Rectangle::new(x, y, x + side, y + side)
}

/// Fresh indexes of so many parts.
fn fresh(parts: [usize; 2], label: &str, random: &mut Random) -> [Session; 2] {
    parts.map(|n| Session::fresh(n, random.pick(&DIRTS), format!("{label}, N = {n}")))
}

fn pair_of<'a>(sessions: &'a [Session; 2], random: Random, label: &'a str) -> Pair<'a, Proved<'a>> {
    let indexes = sessions.each_ref().map(|session| Proved(session.numbers()));
    Pair::new(indexes, sessions[0].held(), random, label)
}

/// A pair of orders that A.14 does not speak of.
fn left_out(answers: [u32; 2]) -> &'static str {
    match answers {
        [0, 7] | [7, 0] => "left out, 7 in one order only",
        [0, 8] | [8, 0] => "left out, 8 in one order only",
        [7, 7] => "left out, 7 in both orders",
        [8, 8] => "left out, 8 in both orders",
        [7, 8] | [8, 7] => "left out, 7 and 8",
        _ => panic!("{answers:?}: an insertion of a free cell of the grid"),
    }
}

/// N of the two indexes, the side of the square, and how many pairs of lists.
const PLANS: [([usize; 2], u32, u64); 10] = [
    ([1, 1], 3, 150),
    ([1, 3], 3, 150),
    ([3, 3], 4, 300),
    ([3, 4], 4, 200),
    ([4, 4], 5, 300),
    ([5, 9], 6, 150),
    ([6, 6], 6, 150),
    ([9, 12], 7, 100),
    ([13, 14], 8, 60),
    ([40, 256], 8, 30),
];

/// `check` gets the two N, a square, a generator and a label, and returns its counts.
fn for_plans(group: u64, check: impl Fn([usize; 2], Rectangle, Random, &str) -> Tally) -> Tally {
    let seed = seed();
    let mut all = Tally::default();
    for (plan, (parts, side, pairs)) in PLANS.into_iter().enumerate() {
        for case in 0..pairs {
            let mut random = Random::for_case(seed, group + plan as u64, case);
            let label = format!("LINTZOGER_SEED={seed}, group {group}, plan {plan}, case {case}");
            let square = square_of(side, &mut random);
            all.add_all(&check(parts, square, random, &label));
        }
    }
    all
}

/// All cells and all windows of small grids.
#[test]
fn two_orders() {
    let all = for_plans(2800, |parts, square, mut random, label| {
        let list = entries_in(square, 6 * parts[0] + 4, &mut random);
        let lists = [list.clone(), rearranged(&list, &mut random)];
        let mut sessions = fresh(parts, label, &mut random);
        match [0, 1].map(|i| enter(&mut sessions[i], &lists[i])) {
            [0, 0] => pair_of(&sessions, random, label).ask_all(square),
            answers => Tally::of(left_out(answers)),
        }
    });
    say(&format!("two orders: {all}"));
    all.require(1_000, &[COMPARED]);
    all.require(20, &[left_out([0, 8]), left_out([8, 8])]);
    all.require(50, &OTHER_VISITS);
    all.require(100_000, &[OTHER_ORDER]);
    all.require(1_000, &REFUSED_ALIKE);
}

/// In this order the last insertion would give a polygon more than 16 rectangles.
const OVER_LIMIT: [Cell; 27] = [
    [21, 12],
    [13, 13],
    [11, 22],
    [14, 14],
    [3, 16],
    [4, 17],
    [19, 13],
    [7, 17],
    [16, 12],
    [15, 2],
    [12, 9],
    [23, 16],
    [21, 7],
    [13, 26],
    [10, 0],
    [0, 12],
    [2, 23],
    [21, 1],
    [7, 7],
    [24, 12],
    [26, 0],
    [2, 1],
    [3, 1],
    [6, 7],
    [29, 10],
    [25, 24],
    [0, 26],
];

/// With its last cell the list is left out; without it the order is accepted, and compared.
#[test]
fn a_polygon_over_its_limit() {
    let seed = seed();
    let mut all = Tally::default();
    for case in 0..30 {
        let mut random = Random::for_case(seed, 2820, case);
        let label = format!("LINTZOGER_SEED={seed}, over the limit, case {case}");
        let tagged = |cell| Entry {
            cell,
            tag: random.number() as u32,
        };
        let list = OVER_LIMIT.map(tagged);
        let (last, others) = list.split_last().expect("cells");
        let mut sessions = fresh([16, 20], &label, &mut random);
        assert_eq!(enter(&mut sessions[0], others), 0, "{label}");
        if enter(&mut sessions[1], &rearranged(others, &mut random)) == 0 {
            let square = Rectangle::new(0, 0, 30, 30);
            all.add_all(&pair_of(&sessions, random.clone(), &label).ask_some(square, 500));
        }
        let [_, mut whole] = fresh([16, 20], &label, &mut random);
        sessions[0].expect(Command::Insert(last.cell, last.tag), 7);
        let answer = enter(&mut whole, &rearranged(&list, &mut random));
        all.count(left_out([7, answer]));
    }
    say(&format!("a polygon over its limit: {all}"));
    all.require(20, &[COMPARED, left_out([7, 0])]);
    all.require(20, &OTHER_VISITS[1..]);
}

/// Calls that leave the entries in the record, if none is refused with 7 or 8: a clear, entries
/// with a wrong tag that are corrected, cells that come and go, calls to be refused. At the end the
/// list once more, mostly refused with 5.
fn roundabout(list: &[Entry], square: Rectangle, random: &mut Random) -> Vec<Command> {
    let strays: Vec<Cell> = cells_of(square)
        .filter(|&cell| list.iter().all(|e| e.cell != cell))
        .collect();
    let mut calls = insertions(&list[..list.len() / 3]);
    calls.push(Command::Clear);
    let mut corrections = Vec::new();
    for &Entry { cell, tag } in list {
        let is_wrong = random.one_in(3);
        calls.push(Command::Insert(cell, if is_wrong { !tag } else { tag }));
        if is_wrong {
            corrections.push([Command::Remove(cell), Command::Insert(cell, tag)]);
        }
        if random.one_in(4) && !strays.is_empty() {
            let stray = random.pick(&strays);
            calls.push(Command::Insert(stray, tag));
            corrections.push([Command::Remove(stray), Command::Remove(stray)]);
        }
        if random.one_in(4) {
            calls.push(refused(cell, random));
        }
    }
    shuffle(&mut corrections, random);
    calls.extend(corrections.into_iter().flatten());
    calls.extend(insertions(list));
    calls
}

/// The records are rearrangements of each other.
fn hold_the_same(sessions: &[Session; 2]) -> bool {
    let [first, second] = sessions.each_ref().map(|session| {
        let mut entries = session.held().to_vec();
        entries.sort_by_key(|e| e.cell);
        entries
    });
    first == second
}

/// A stronger form: any two lists of calls whose records are rearrangements of each other.
#[test]
fn corrected_points() {
    let all = for_plans(2840, |parts, square, mut random, label| {
        let list = entries_in(square, 5 * parts[0] + 3, &mut random);
        let mut sessions = fresh(parts, label, &mut random);
        enter(&mut sessions[0], &list);
        for call in roundabout(&rearranged(&list, &mut random), square, &mut random) {
            sessions[1].apply(call);
        }
        if !hold_the_same(&sessions) {
            return Tally::of("left out, other entries");
        }
        let mut tally = pair_of(&sessions, random, label).ask_all(square);
        tally.add_all(&sessions[1].tally);
        tally
    });
    say(&format!("corrected points: {all}"));
    all.require(500, &[COMPARED]);
    all.require(20, &["left out, other entries"]);
    all.require(50, &OTHER_VISITS);
    all.require(500, &REFUSED_ALIKE);
    all.require(
        1_000,
        &[
            "remove accepted, nodes kept",
            "insert refused 5",
            "remove refused 6",
        ],
    );
    all.require(10, &["insert refused 8"]);
}

/// A list of calls from a fresh index to a limit of a polygon, where the last insertion is refused
/// with 7, and its entries alone. These are accepted with the refused one too.
fn check_limit((built, cell): (Checked, Cell), random: &mut Random, label: &str) -> Tally {
    let mut sessions = fresh([built.index.n(), 64], label, random);
    for &call in &built.commands {
        sessions[0].expect(call, 0);
    }
    sessions[0].expect(Command::Insert(cell, 7), 7);
    let list = rearranged(built.held(), random);
    assert_eq!(enter(&mut sessions[1], &list), 0, "{label}");
    assert!(hold_the_same(&sessions), "{label}");
    let square = sessions[0].tree().expect("entries").rectangle;
    let tally = pair_of(&sessions, random.clone(), label).ask_some(square, 200);
    sessions[1].expect(Command::Insert(cell, 7), 0);
    tally
}

#[test]
fn after_a_polygon_over_its_limit() {
    let seed = seed();
    let mut all = Tally::default();
    for case in 0..4 {
        let built = [rungs(), over_bars(&REFINED_17), filled_bars(&PIECES_257)];
        for (number, built) in built.into_iter().enumerate() {
            let mut random = Random::for_case(seed, 2860 + number as u64, case);
            let label = format!("LINTZOGER_SEED={seed}, limit {number}, case {case}");
            all.add_all(&check_limit(built, &mut random, &label));
        }
    }
    say(&format!("after a polygon over its limit: {all}"));
    all.require(12, &[COMPARED]);
    all.require(8, &OTHER_VISITS);
}
