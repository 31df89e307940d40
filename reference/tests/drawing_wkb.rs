//! Document 02, request A.4: polygons whose bytes are written out here, and the bounds of what the
//! call accepts. (drawing_wkb_rings reads the bytes back, drawing_wkb_files has stored ones;
//! drawing_bad_input has other faults, drawing_random_lists more polygons.)

mod support;

use reference::proved;
use reference::random::Random;
use support::polygons::{apart, every_length, INVALID};
use support::wkb::{case, hex, needed};
use support::{OUTPUT_LIMIT, POLYGON_LIMIT};

/// The polygon's bytes are these, written as hexadecimal digits.
fn check(polygon: &[[u32; 4]], bytes: &str) {
    let expected = hex(bytes);
    let place = format!("{polygon:?}");
    let output = case(polygon, OUTPUT_LIMIT).expect(0, &place);
    assert_eq!(output.written_bytes(), expected, "{place}");
    assert_eq!(output.length as usize, expected.len(), "{place}");
}

#[test]
fn one_cell() {
    check(
        &[[0, 0, 1, 1]],
        "01 07000000 01000000
         01 03000000 01000000 05000000
         0000000000000000 0000000000000000
         000000000000f03f 0000000000000000
         000000000000f03f 000000000000f03f
         0000000000000000 000000000000f03f
         0000000000000000 0000000000000000",
    );
}

#[test]
fn four_different_numbers() {
    check(
        &[[2, 3, 5, 7]],
        "01 07000000 01000000
         01 03000000 01000000 05000000
         0000000000000040 0000000000000840
         0000000000001440 0000000000000840
         0000000000001440 0000000000001c40
         0000000000000040 0000000000001c40
         0000000000000040 0000000000000840",
    );
}

/// Two that overlap, the first up to the grid's end.
#[test]
fn two_rectangles() {
    check(
        &[[2, 3, 65536, 65536], [0, 0, 4, 4]],
        "01 07000000 02000000
         01 03000000 01000000 05000000
         0000000000000040 0000000000000840
         000000000000f040 0000000000000840
         000000000000f040 000000000000f040
         0000000000000040 000000000000f040
         0000000000000040 0000000000000840
         01 03000000 01000000 05000000
         0000000000000000 0000000000000000
         0000000000001040 0000000000000000
         0000000000001040 0000000000001040
         0000000000000000 0000000000001040
         0000000000000000 0000000000000000",
    );
}

/// Numbers whose doubles have more than two bytes that are not 0.
#[test]
fn numbers_of_many_bits() {
    check(
        &[[12345, 65535, 54321, 65536]],
        "01 07000000 01000000
         01 03000000 01000000 05000000
         00000000801cc840 00000000e0ffef40
         000000002086ea40 00000000e0ffef40
         000000002086ea40 000000000000f040
         00000000801cc840 000000000000f040
         00000000801cc840 00000000e0ffef40",
    );
}

/// What is beyond the length stays: here the last 3 bytes of 105.
#[test]
fn room_for_one_rectangle() {
    let one = [[2, 3, 5, 7]];
    for (room, answer) in [(0, 11), (101, 11), (102, 0), (105, 0), (110, 0)] {
        case(&one, room).expect(answer, &format!("{room} bytes"));
    }
    let (mut out, mut length) = ([0xa5; 105], 7);
    assert_eq!(proved::wkb(&one.concat(), &mut out, &mut length), 0);
    assert_eq!(length, 102);
    assert_eq!(out[94..], hex("0000000000000840 a5a5a5"));
    let (mut out, mut length) = ([0xa5; 101], 7);
    assert_eq!(proved::wkb(&one.concat(), &mut out, &mut length), 11);
    assert_eq!((out, length), ([0xa5; 101], 7));
}

/// Polygons of each count with each room, from none to more than is needed.
#[test]
fn every_room() {
    for count in 1..=POLYGON_LIMIT {
        let polygon = apart(count);
        let need = needed(count);
        let more = [4096, 65535, 65536, 65536 + need - 1, 1 << 20];
        for room in (0..=need + 100).chain(more) {
            let place = format!("{count} rectangles, {room} bytes");
            let mut case = case(&polygon, room);
            case.fill = room as u64;
            let output = case.expect(if room < need { 11 } else { 0 }, &place);
            if room >= need {
                assert_eq!(output.length as usize, need, "{place}");
            }
        }
    }
}

/// Accepted are one to sixteen rectangles, and no other length, with room and without.
#[test]
fn every_length_of_the_polygon() {
    for (numbers, is_polygon) in every_length() {
        let place = format!("{} numbers", numbers.len());
        let mut case = case(&[], OUTPUT_LIMIT);
        case.polygon = numbers;
        case.expect(if is_polygon { 0 } else { 3 }, &place);
        case.output_length = 0;
        case.expect(if is_polygon { 11 } else { 3 }, &place);
    }
}

/// An invalid rectangle is refused at each place, whatever room there is.
#[test]
fn invalid_rectangle_anywhere() {
    for count in [1, 2, 3, POLYGON_LIMIT] {
        let need = needed(count);
        for at in 0..count {
            for invalid in INVALID {
                let mut polygon = apart(count);
                polygon[at] = invalid;
                let place = format!("{invalid:?} at place {at} of {count}");
                for room in [0, 1, need - 1, need, OUTPUT_LIMIT] {
                    case(&polygon, room).expect(3, &format!("{place}, {room} bytes"));
                }
            }
        }
    }
}

/// Seventeen rectangles are refused also where there is room for them.
#[test]
fn room_for_too_many() {
    for count in [17, 18, 32] {
        for room in [needed(count), needed(count) + 1, 4096] {
            case(&apart(count), room).expect(3, &format!("{count} rectangles, {room} bytes"));
        }
    }
}

/// The call stores one number, and after a refusal none.
#[test]
fn numbers_beside_the_length_stay() {
    let (valid, invalid) = ([2, 3, 5, 7], [2, 3, 2, 7]);
    for (polygon, room, answer, length) in [
        (valid, 102, 0, 102),
        (valid, 101, 11, 902),
        (invalid, 102, 3, 902),
        (invalid, 0, 3, 902),
    ] {
        let mut numbers: Vec<u32> = (900..905).collect();
        let mut out = vec![0; room];
        let given = proved::wkb(&polygon, &mut out, &mut numbers[2]);
        assert_eq!(given, answer, "{polygon:?}, {room} bytes");
        assert_eq!(numbers, [900, 901, length, 903, 904]);
    }
}

/// The output may begin at any address: sixteen in turn. The bytes around it stay.
#[test]
fn every_address() {
    let mut random = Random::new(4);
    for count in [1, 2, POLYGON_LIMIT] {
        let polygon = apart(count);
        let room = needed(count);
        let expected = case(&polygon, room).expect(0, "at one address");
        let before: Vec<u8> = (0..room + 32).map(|_| random.number() as u8).collect();
        let mut lent = before.clone();
        for start in 0..16 {
            let end = start + room;
            let mut length = 0;
            let answer = proved::wkb(&polygon.concat(), &mut lent[start..end], &mut length);
            assert_eq!((answer, length), (0, room as u32), "start {start}");
            assert_eq!(lent[start..end], *expected.written_bytes(), "start {start}");
            lent[start..end].copy_from_slice(&before[start..end]);
            assert_eq!(lent, before, "start {start}");
        }
    }
}
