//! Faults: changes that make a valid case one that is refused with 3.

use super::case::{Call, Case};
use super::{GRID_END, LIST_LIMIT, POLYGON_LIMIT};

/// A change of one argument.
#[derive(Clone, Copy, Debug)]
pub enum Fault {
    ListLength(LengthFault),
    ListRectangle(Place, RectangleFault, usize),
    PolygonLength(LengthFault),
    PolygonRectangle(Place, RectangleFault, usize),
    Rectangle(RectangleFault, usize),
    Cell(u32, usize),
    ResultLength(usize),
}

#[derive(Clone, Copy, Debug)]
pub enum LengthFault {
    Empty,
    /// This many rectangles over the limit.
    OverLimit(usize),
    /// This many numbers less.
    Shorter(usize),
    /// This many numbers more.
    Longer(usize),
}

#[derive(Clone, Copy, Debug)]
pub enum Place {
    First,
    Middle,
    Last,
}

/// What is wrong with a rectangle, in one dimension.
#[derive(Clone, Copy, Debug)]
pub enum RectangleFault {
    /// ll = ur, at ll's place.
    EqualAtLl,
    /// ll = ur, at ur's place (which may be 65536).
    EqualAtUr,
    /// ll and ur interchanged.
    Interchanged,
    /// ll is one more than ur.
    OneOver,
    /// ur has this value, which is over 65536.
    Ur(u32),
    /// ll has this value, which is not below any ur.
    Ll(u32),
    /// 65536 is added to ll and ur: valid if only the low 16 bits were looked at.
    Shifted,
}

const LENGTH_FAULTS: [LengthFault; 9] = [
    LengthFault::Empty,
    LengthFault::OverLimit(1),
    LengthFault::OverLimit(2),
    LengthFault::Shorter(1),
    LengthFault::Shorter(2),
    LengthFault::Shorter(3),
    LengthFault::Longer(1),
    LengthFault::Longer(2),
    LengthFault::Longer(3),
];

const PLACES: [Place; 3] = [Place::First, Place::Middle, Place::Last];

const RECTANGLE_FAULTS: [RectangleFault; 11] = [
    RectangleFault::EqualAtLl,
    RectangleFault::EqualAtUr,
    RectangleFault::Interchanged,
    RectangleFault::OneOver,
    RectangleFault::Ur(GRID_END + 1),
    RectangleFault::Ur(2 * GRID_END),
    RectangleFault::Ur(1 << 31),
    RectangleFault::Ur(u32::MAX),
    RectangleFault::Ll(GRID_END),
    RectangleFault::Ll(u32::MAX),
    RectangleFault::Shifted,
];

const BAD_COORDINATES: [u32; 4] = [GRID_END, GRID_END + 1, 1 << 31, u32::MAX];

const BAD_RESULT_LENGTHS: [usize; 9] = [0, 1, 4, 1020, 1023, 1025, 1027, 1028, 2048];

/// Every fault that a case of the call can have.
pub fn faults(call: Call) -> Vec<Fault> {
    let mut faults = Vec::new();
    if call.takes_list() {
        faults.extend(LENGTH_FAULTS.map(Fault::ListLength));
        faults.extend(BAD_RESULT_LENGTHS.map(Fault::ResultLength));
    }
    if call.takes_polygon() {
        faults.extend(LENGTH_FAULTS.map(Fault::PolygonLength));
    }
    for d in 0..2 {
        if call.takes_cell() {
            faults.extend(BAD_COORDINATES.map(|coordinate| Fault::Cell(coordinate, d)));
        }
        if call.takes_rectangle() {
            faults.extend(RECTANGLE_FAULTS.map(|fault| Fault::Rectangle(fault, d)));
        }
        for place in PLACES {
            if call.takes_list() {
                faults.extend(RECTANGLE_FAULTS.map(|f| Fault::ListRectangle(place, f, d)));
            }
            if call.takes_polygon() {
                faults.extend(RECTANGLE_FAULTS.map(|f| Fault::PolygonRectangle(place, f, d)));
            }
        }
    }
    faults
}

/// The arguments that a fault can be in.
#[derive(Clone, Copy, Debug, PartialEq, Eq)]
pub enum Argument {
    List,
    Polygon,
    Rectangle,
    Cell,
    Result,
}

impl Fault {
    /// Faults of different arguments cannot undo each other.
    pub fn argument(self) -> Argument {
        match self {
            Fault::ListLength(..) | Fault::ListRectangle(..) => Argument::List,
            Fault::PolygonLength(..) | Fault::PolygonRectangle(..) => Argument::Polygon,
            Fault::Rectangle(..) => Argument::Rectangle,
            Fault::Cell(..) => Argument::Cell,
            Fault::ResultLength(..) => Argument::Result,
        }
    }

    pub fn apply(self, case: &mut Case) {
        match self {
            Fault::ListLength(fault) => fault.apply(&mut case.list, LIST_LIMIT),
            Fault::ListRectangle(place, fault, d) => apply_at(place, fault, d, &mut case.list),
            Fault::PolygonLength(fault) => fault.apply(&mut case.polygon, POLYGON_LIMIT),
            Fault::PolygonRectangle(place, fault, d) => {
                apply_at(place, fault, d, &mut case.polygon)
            }
            Fault::Rectangle(fault, d) => fault.apply(&mut case.rectangle, d),
            Fault::Cell(coordinate, d) => case.cell[d] = coordinate,
            Fault::ResultLength(length) => case.result_length = length,
        }
    }
}

impl LengthFault {
    fn apply(self, numbers: &mut Vec<u32>, limit: usize) {
        let length = match self {
            LengthFault::Empty => 0,
            LengthFault::OverLimit(more) => 4 * (limit + more),
            LengthFault::Shorter(less) => numbers.len().saturating_sub(less),
            LengthFault::Longer(more) => numbers.len() + more,
        };
        // The numbers added repeat those that are there, so added rectangles are valid.
        let old = if numbers.is_empty() {
            vec![0, 0, 1, 1]
        } else {
            numbers.clone()
        };
        *numbers = old.into_iter().cycle().take(length).collect();
    }
}

/// Applies the fault to one rectangle of the list; a list without one stays as it is.
fn apply_at(place: Place, fault: RectangleFault, dimension: usize, numbers: &mut [u32]) {
    let count = numbers.len() / 4;
    if count == 0 {
        return;
    }
    let at = match place {
        Place::First => 0,
        Place::Middle => count / 2,
        Place::Last => count - 1,
    };
    fault.apply(&mut numbers[4 * at..4 * at + 4], dimension);
}

impl RectangleFault {
    fn apply(self, rectangle: &mut [u32], d: usize) {
        let (ll, ur) = (rectangle[d], rectangle[2 + d]);
        let (bad_ll, bad_ur) = match self {
            RectangleFault::EqualAtLl => (ll, ll),
            RectangleFault::EqualAtUr => (ur, ur),
            RectangleFault::Interchanged => (ur, ll),
            RectangleFault::OneOver => (ur.saturating_add(1), ur),
            RectangleFault::Ur(value) => (ll, value),
            RectangleFault::Ll(value) => (value, ur),
            RectangleFault::Shifted => (ll.saturating_add(GRID_END), ur.saturating_add(GRID_END)),
        };
        rectangle[d] = bad_ll;
        rectangle[2 + d] = bad_ur;
    }
}
