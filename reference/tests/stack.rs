//! The stack that the calls of the index use, and the drawing exercise's cut by a polygon, which
//! counts cells. No proof bounds it, so it is measured. All calls are made on a thread with 1 MB of
//! stack: one that needs more ends this test program.

mod memory_support;
mod support;

use memory_support::built::{chain, chain_of_sixteens};
use memory_support::images::any_image;
use memory_support::{length_of, MOST_PARTS};
use reference::geometry::Cell;
use reference::random::Random;
use reference::{proved, proved_index};
use std::collections::BTreeMap;
use std::hint::black_box;
use std::panic::resume_unwind;
use std::thread;
use support::many_pieces::{nested_bars, polygons, squares};
use support::{say, seed, RESULT_LENGTH};

/// The stack of the thread that makes the calls, in bytes.
const STACK: usize = 1 << 20;

/// The most that a call may use on an index that was filled from a fresh one, or a cut by a
/// polygon; and the most on any sound index.
const ORDINARY: usize = 256 << 10;
const DEEPEST: usize = 900 << 10;

const GRID: [u32; 4] = [0, 0, 65536, 65536];

/// Runs the job on a thread with little stack.
fn on_small_stack<T: Send + 'static>(job: impl FnOnce() -> T + Send + 'static) -> T {
    let thread = thread::Builder::new().stack_size(STACK).spawn(job);
    let ended = thread.expect("the thread starts").join();
    ended.unwrap_or_else(|panic| resume_unwind(panic))
}

/// What stands in the unused stack before a call.
const PATTERN: u64 = 0xa5c3_96e1_5a3c_691e;

/// The bytes below a function's variables that its own frame, and those of what it calls, may take.
const OWN: usize = 1024;

/// What the call returns, and the bytes of stack that it used: the unused stack is filled with the
/// pattern first, and the lowest number that the call wrote to is as far as it went.
#[inline(never)]
fn measured(call: impl FnOnce() -> u32) -> (u32, usize) {
    let here = 0u64;
    let top = black_box(&raw const here) as usize;
    let lowest = lowest_of_stack();
    paint(lowest);
    let answer = call();
    (answer, top - first_overwritten(lowest))
}

// Both functions reach below the stack's pointer, in memory of this thread's stack that nothing
// uses meanwhile; the accesses are volatile, so that they are made as written.

#[inline(never)]
fn paint(lowest: usize) {
    let here = 0u64;
    let end = black_box(&raw const here) as usize - OWN;
    for place in (lowest..end).step_by(8) {
        unsafe { (place as *mut u64).write_volatile(PATTERN) };
    }
}

#[inline(never)]
fn first_overwritten(lowest: usize) -> usize {
    let mut place = lowest;
    while unsafe { (place as *const u64).read_volatile() } == PATTERN {
        place += 8;
    }
    place
}

/// As large as the C library's pthread_attr_t, or larger.
#[repr(C)]
struct Attributes([u64; 16]);

extern "C" {
    fn pthread_self() -> usize;
    fn pthread_getattr_np(thread: usize, attributes: *mut Attributes) -> i32;
    fn pthread_attr_getstack(
        attributes: *const Attributes,
        lowest: *mut usize,
        size: *mut usize,
    ) -> i32;
    fn pthread_attr_destroy(attributes: *mut Attributes) -> i32;
}

/// The place of the lowest byte of this thread's stack.
fn lowest_of_stack() -> usize {
    let mut attributes = Attributes([0; 16]);
    let (mut lowest, mut size) = (0, 0);
    unsafe {
        assert_eq!(pthread_getattr_np(pthread_self(), &mut attributes), 0);
        assert_eq!(
            pthread_attr_getstack(&attributes, &mut lowest, &mut size),
            0
        );
        assert_eq!(pthread_attr_destroy(&mut attributes), 0);
    }
    assert!(lowest % 8 == 0 && size <= STACK + 65536, "stack of {size}");
    lowest
}

/// The most that the calls of each kind used, in bytes.
type Most = BTreeMap<&'static str, usize>;

/// An index, and what the calls on it used.
struct Measured {
    index: Vec<u32>,
    work: Vec<u32>,
    list: Vec<u32>,
    most: Most,
}

impl Measured {
    fn new(index: Vec<u32>) -> Measured {
        Measured {
            work: vec![0; index.len()],
            list: vec![0; 3 * 8 * MOST_PARTS],
            index,
            most: Most::new(),
        }
    }

    /// The parts in use.
    fn parts(&self) -> u32 {
        self.index[..8].iter().map(|bits| bits.count_ones()).sum()
    }

    fn note(&mut self, kind: &'static str, used: usize) {
        let most = self.most.entry(kind).or_default();
        *most = used.max(*most);
    }

    fn insert(&mut self, cell: Cell) -> u32 {
        let before = self.parts();
        let (index, work) = (&mut self.index, &mut self.work);
        let call = || proved_index::insert(index, work, cell, 1, &mut 0, &mut 0);
        let (answer, used) = measured(call);
        let kind = match answer {
            0 if before > 0 && self.parts() > before => "insert with a split",
            0 => "insert",
            5 => "insert, refused 5",
            7 => "insert, refused 7",
            8 => "insert, refused 8",
            _ => panic!("insert {cell:?}: {answer}"),
        };
        self.note(kind, used);
        answer
    }

    fn point(&mut self, cell: Cell) {
        let index = &self.index;
        let call = || proved_index::point(index, cell, &mut 0, &mut 0, &mut 0);
        let (answer, used) = measured(call);
        assert_eq!(answer, 0, "point {cell:?}");
        self.note("point", used);
    }

    fn nearest(&mut self, cell: Cell) {
        let index = &self.index;
        let near = &mut [0, 0];
        let call = || proved_index::nearest(index, cell, near, &mut 0, &mut 0, &mut 0);
        let (answer, used) = measured(call);
        assert_eq!(answer, 0, "nearest {cell:?}");
        self.note("nearest", used);
    }

    /// The cells in the window.
    fn window(&mut self, window: [u32; 4]) -> Vec<Cell> {
        let (index, list) = (&self.index, &mut self.list);
        let mut matches = 0;
        let call = || proved_index::window(index, window, list, &mut matches, &mut 0);
        let (answer, used) = measured(call);
        assert_eq!(answer, 0, "window {window:?}");
        self.note("window", used);
        let entries = self.list.chunks(3).take(matches as usize);
        entries.map(|e| [e[0], e[1]]).collect()
    }

    fn is_empty(&mut self, window: [u32; 4]) {
        let index = &self.index;
        let call = || proved_index::is_empty(index, window, &mut 0, &mut 0);
        let (answer, used) = measured(call);
        assert_eq!(answer, 0, "is_empty {window:?}");
        self.note("emptiness", used);
    }

    fn remove(&mut self, cell: Cell) {
        let index = &mut self.index;
        let (answer, used) = measured(|| proved_index::remove(index, cell, &mut 0));
        assert_eq!(answer, 0, "remove {cell:?}");
        self.note("remove", used);
    }

    /// Queries of all entries; then they are removed one by one.
    fn query_and_empty(&mut self) {
        for cell in self.window(GRID) {
            self.point(cell);
            self.nearest([cell[1], cell[0]]);
            let alone = [cell[0], cell[1], cell[0] + 1, cell[1] + 1];
            self.window(alone);
            self.is_empty(alone);
        }
        self.is_empty(GRID);
        for cell in self.window(GRID) {
            self.remove(cell);
        }
        assert!(self.index.iter().all(|&number| number == 0));
    }
}

/// The kinds of calls that each index is measured with, apart from insertions.
const OTHERS: [&str; 5] = ["remove", "point", "window", "nearest", "emptiness"];

/// Prints what the calls used. Each of the kinds was called, and no call used more than the bound.
fn check(name: &str, most: &Most, insertions: [&'static str; 2], bound: usize) {
    let shown = most
        .iter()
        .map(|(kind, used)| format!("{kind} {} KB", used.div_ceil(1024)));
    say(&format!(
        "stack, {name}: {}",
        shown.collect::<Vec<_>>().join("; ")
    ));
    for kind in insertions.iter().chain(&OTHERS) {
        assert!(most.contains_key(kind), "{name}: no {kind}");
    }
    for (kind, &used) in most {
        assert!(used <= bound, "{name}: {kind} uses {used} bytes of stack");
    }
}

/// The measure: so many frames with 1 KB of variables each.
#[test]
fn frames_of_known_size() {
    fn frames(count: u32) -> u32 {
        let mut variables = black_box([count; 256]);
        if count > 1 {
            variables[count as usize] = frames(count - 1);
        }
        black_box(&variables).iter().fold(0, |a, &b| a ^ b)
    }
    for count in [10, 100, 200] {
        let (_, used) = on_small_stack(move || measured(|| frames(count)));
        let least = count as usize * 1024;
        assert!((least..4 * least).contains(&used), "{count}: {used} bytes");
    }
}

/// Cells until the index is full, queries, and all removed. Random cells; and a row from left to
/// right, which gives the highest trees that a fresh index comes to: nine levels at N = 256.
#[test]
fn ordinary() {
    let seed = seed();
    for n in [64, 256] {
        for is_row in [false, true] {
            let most = on_small_stack(move || {
                let mut random = Random::for_case(seed, 1600, n as u64);
                let mut index = Measured::new(vec![0; length_of(n)]);
                let mut cells = (0..).map(|i| match is_row {
                    true => [i, 0],
                    false => [0, 1].map(|_| random.between(0, 65535)),
                });
                while cells.next().map(|cell| index.insert(cell)) != Some(8) {}
                index.query_and_empty();
                index.most
            });
            let insertions = ["insert", "insert with a split"];
            let name = if is_row { "a row" } else { "random cells" };
            check(&format!("N = {n}, {name}"), &most, insertions, ORDINARY);
        }
    }
}

/// Chains of one-branch nodes, whose memory is sound though no history leads to it: 256 levels, the
/// highest tree that there is, and 255 levels with room for one split. Cells inside and outside of
/// all polygons, until the leaf is full and the next cell splits it, or is refused.
#[test]
fn chains() {
    let mut random = Random::for_case(seed(), 1601, 0);
    for (levels, last) in [(256, "insert, refused 8"), (255, "insert with a split")] {
        for (name, tree) in [
            ("one rectangle", chain(levels)),
            ("16 rectangles", chain_of_sixteens(levels, &mut random)),
        ] {
            let image = any_image(MOST_PARTS, Some(&tree), &mut random);
            let most = on_small_stack(move || {
                let mut index = Measured::new(image);
                for &cell in &index.window(GRID)[1..] {
                    index.remove(cell);
                }
                for i in 0..9 {
                    index.insert([[500 + i, 600], [2000 + 3 * i, 4000 + i]][i as usize % 2]);
                }
                index.query_and_empty();
                index.most
            });
            let name = format!("chain of {levels} levels, {name} each");
            check(&name, &most, ["insert", last], DEEPEST);
        }
    }
}

/// Cuts by a polygon whose count of cells goes deepest.
#[test]
fn cuts_by_a_polygon() {
    let most = on_small_stack(|| {
        let mut result = vec![0; RESULT_LENGTH];
        let lists = [nested_bars(), squares()];
        let pairs = lists
            .iter()
            .flat_map(|list| polygons().map(|p| (list.concat(), p.concat())));
        let used = pairs.map(|(list, polygon)| {
            let result = &mut result[..];
            let cut = || proved::cut_polygon(&list, &polygon, result, &mut 0, &mut 0);
            let (answer, used) = measured(cut);
            assert_eq!(answer, 0);
            used
        });
        used.max().expect("a cut")
    });
    say(&format!(
        "stack, cut by a polygon: {} KB",
        most.div_ceil(1024)
    ));
    assert!(most <= ORDINARY, "{most} bytes of stack");
}
