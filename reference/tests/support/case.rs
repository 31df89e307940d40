//! One call of the drawing exercise, made to both implementations and compared.

use super::report::{difference, inputs};
use super::{OUTPUT_LIMIT, RESULT_LENGTH};
use reference::drawing::{self, Refusal};
use reference::proved;
use reference::random::Random;

/// Numbers before and after the result list, where no call may write.
pub const GUARD: usize = 16;

/// Bytes before and after the output, where no call may write: as many as a call writes at most.
pub const OUTPUT_GUARD: usize = OUTPUT_LIMIT;

/// The calls, in the order of include/drawing.h.
#[derive(Clone, Copy, Debug, PartialEq, Eq)]
pub enum Call {
    Common,
    Grow,
    ExtraArea,
    Cut,
    CutPolygon,
    Refine,
    Contains,
    Wkb,
}

pub const CALLS: [Call; 8] = [
    Call::Common,
    Call::Grow,
    Call::ExtraArea,
    Call::Cut,
    Call::CutPolygon,
    Call::Refine,
    Call::Contains,
    Call::Wkb,
];

impl Call {
    pub fn takes_list(self) -> bool {
        !matches!(self, Call::ExtraArea | Call::Contains | Call::Wkb)
    }

    pub fn takes_rectangle(self) -> bool {
        matches!(self, Call::Common | Call::ExtraArea | Call::Cut)
    }

    pub fn takes_cell(self) -> bool {
        matches!(self, Call::Grow | Call::ExtraArea | Call::Contains)
    }

    pub fn takes_polygon(self) -> bool {
        matches!(self, Call::CutPolygon | Call::Contains | Call::Wkb)
    }

    pub fn writes_bytes(self) -> bool {
        self == Call::Wkb
    }
}

/// The arguments of a call. Those that the call does not take are unused.
#[derive(Clone, Debug, PartialEq, Eq)]
pub struct Case {
    pub call: Call,
    pub list: Vec<u32>,
    pub rectangle: [u32; 4],
    pub polygon: Vec<u32>,
    pub cell: [u32; 2],
    pub result_length: usize,
    /// The bytes of the output.
    pub output_length: usize,
    /// Seed of what the result list, the output and the numbers stored hold before the call.
    pub fill: u64,
}

/// What a call leaves behind.
#[derive(Clone, Debug, PartialEq, Eq)]
pub struct Output {
    /// 0, or the number of the refusal.
    pub answer: u32,
    pub written: u32,
    pub removed: u64,
    pub extra: u64,
    pub has: u32,
    pub compared: u32,
    pub length: u32,
    /// The numbers before the result list, the result list, and those after it.
    pub numbers: Vec<u32>,
    /// The bytes before the output, the output, and those after it.
    pub bytes: Vec<u8>,
}

impl Output {
    /// The rectangles written, four numbers each.
    pub fn list(&self) -> &[u32] {
        &self.numbers[GUARD..GUARD + 4 * self.written as usize]
    }

    /// The bytes written.
    pub fn written_bytes(&self) -> &[u8] {
        &self.bytes[OUTPUT_GUARD..OUTPUT_GUARD + self.length as usize]
    }
}

impl Case {
    pub fn new(call: Call) -> Case {
        Case {
            call,
            list: vec![0, 0, 1, 1],
            rectangle: [0, 0, 1, 1],
            polygon: vec![0, 0, 1, 1],
            cell: [0, 0],
            result_length: RESULT_LENGTH,
            output_length: OUTPUT_LIMIT,
            fill: 0,
        }
    }

    /// What is there before the call.
    pub fn before(&self) -> Output {
        let mut random = Random::new(self.fill);
        Output {
            answer: 0,
            written: random.number() as u32,
            removed: random.number(),
            extra: random.number(),
            has: random.number() as u32,
            compared: random.number() as u32,
            length: random.number() as u32,
            numbers: (0..GUARD + self.result_length + GUARD)
                .map(|_| random.number() as u32)
                .collect(),
            bytes: self.bytes_before(&mut random),
        }
    }

    fn bytes_before(&self, random: &mut Random) -> Vec<u8> {
        if !self.call.writes_bytes() {
            return Vec::new();
        }
        let count = OUTPUT_GUARD + self.output_length + OUTPUT_GUARD;
        let eights = (0..count.div_ceil(8)).map(|_| random.number().to_ne_bytes());
        eights.flatten().take(count).collect()
    }

    /// The bytes lent as the output.
    fn output<'a>(&self, bytes: &'a mut [u8]) -> &'a mut [u8] {
        &mut bytes[OUTPUT_GUARD..OUTPUT_GUARD + self.output_length]
    }

    fn second(&self, mut output: Output) -> Output {
        let result = &mut output.numbers[GUARD..GUARD + self.result_length];
        let written = &mut output.written;
        let answer = match self.call {
            Call::Common => drawing::common(&self.list, self.rectangle, result, written),
            Call::Grow => drawing::grow(&self.list, self.cell, result, written),
            Call::ExtraArea => drawing::extra_area(self.rectangle, self.cell, &mut output.extra),
            Call::Cut => drawing::cut(&self.list, self.rectangle, result, written),
            Call::CutPolygon => {
                let (list, polygon, removed) = (&self.list, &self.polygon, &mut output.removed);
                drawing::cut_polygon(list, polygon, result, written, removed)
            }
            Call::Refine => drawing::refine(&self.list, result, written),
            Call::Contains => {
                let (has, compared) = (&mut output.has, &mut output.compared);
                drawing::contains(&self.polygon, self.cell, has, compared)
            }
            Call::Wkb => {
                let out = self.output(&mut output.bytes);
                drawing::wkb(&self.polygon, out, &mut output.length)
            }
        };
        output.answer = answer.map_or_else(Refusal::number, |()| 0);
        output
    }

    fn proved(&self, mut output: Output) -> Output {
        let result = &mut output.numbers[GUARD..GUARD + self.result_length];
        let written = &mut output.written;
        output.answer = match self.call {
            Call::Common => proved::common(&self.list, self.rectangle, result, written),
            Call::Grow => proved::grow(&self.list, self.cell, result, written),
            Call::ExtraArea => proved::extra_area(self.rectangle, self.cell, &mut output.extra),
            Call::Cut => proved::cut(&self.list, self.rectangle, result, written),
            Call::CutPolygon => {
                let (list, polygon, removed) = (&self.list, &self.polygon, &mut output.removed);
                proved::cut_polygon(list, polygon, result, written, removed)
            }
            Call::Refine => proved::refine(&self.list, result, written),
            Call::Contains => {
                let (has, compared) = (&mut output.has, &mut output.compared);
                proved::contains(&self.polygon, self.cell, has, compared)
            }
            Call::Wkb => {
                let out = self.output(&mut output.bytes);
                proved::wkb(&self.polygon, out, &mut output.length)
            }
        };
        output
    }

    /// Makes the call to both implementations and fails the test where they differ: in the answer,
    /// in what is stored, in any number of the result list or next to it, in any byte of the output
    /// or next to it, or in the lists read. `place` says which case of which test this is.
    pub fn compare(&self, place: &str) -> Output {
        let before = self.before();
        let lent = self.clone();
        let second = self.second(before.clone());
        let proved = lent.proved(before);
        if second != proved || *self != lent {
            panic!("{place}: {}", difference(self, &lent, &second, &proved));
        }
        self.check_untouched(place, &second);
        second
    }

    /// After a refusal everything is as it was; else at least what the call does not write is.
    fn check_untouched(&self, place: &str, output: &Output) {
        let mut expected = self.before();
        if output.answer != 0 {
            expected.answer = output.answer;
        } else if self.call == Call::ExtraArea {
            expected.extra = output.extra;
        } else if self.call == Call::Contains {
            (expected.has, expected.compared) = (output.has, output.compared);
        } else if self.call == Call::Wkb {
            let end = OUTPUT_GUARD + output.length as usize;
            expected.length = output.length;
            expected.bytes[OUTPUT_GUARD..end].copy_from_slice(output.written_bytes());
        } else {
            let end = GUARD + 4 * output.written as usize;
            expected.written = output.written;
            if self.call == Call::CutPolygon {
                expected.removed = output.removed;
            }
            expected.numbers[GUARD..end].copy_from_slice(&output.numbers[GUARD..end]);
        }
        assert_eq!(*output, expected, "{place}: written to\n{}", inputs(self));
    }

    /// As `compare`, and fails also where the answer is not the expected one.
    pub fn expect(&self, answer: u32, place: &str) -> Output {
        let output = self.compare(place);
        assert_eq!(
            output.answer,
            answer,
            "{place}: {:?} answers {}, expected {answer}\n{}",
            self.call,
            output.answer,
            inputs(self)
        );
        output
    }
}
