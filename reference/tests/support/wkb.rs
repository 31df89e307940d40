//! Cases of the call that writes Well-Known Binary, and a reader of its bytes.

use super::case::{Call, Case};

/// The polygon, and so many bytes of output.
pub fn case(polygon: &[[u32; 4]], output_length: usize) -> Case {
    let mut case = Case::new(Call::Wkb);
    case.polygon = polygon.concat();
    case.output_length = output_length;
    // The call writes no list.
    case.result_length = 0;
    case
}

/// 'The length, which is returned, is 9 + 93 × rectangles.'
pub fn needed(rectangles: usize) -> usize {
    9 + 93 * rectangles
}

/// The bytes of a text of hexadecimal digits, two a byte; space between them is passed over.
pub fn hex(text: &str) -> Vec<u8> {
    let digits: Vec<char> = text.chars().filter(|c| !c.is_whitespace()).collect();
    let byte = |two: &[char]| u8::from_str_radix(&two.iter().collect::<String>(), 16);
    digits
        .chunks(2)
        .map(|two| byte(two).expect("hex"))
        .collect()
}

/// A ring's points.
pub type Ring = Vec<[f64; 2]>;

/// The rings of a GeometryCollection of Polygons with one ring each. Fails where the bytes are not
/// such a collection, little-endian, from start to end.
pub fn rings(bytes: &[u8]) -> Vec<Ring> {
    let mut reader = Reader(bytes);
    let polygons = reader.parts_of(7);
    let rings = (0..polygons).map(|_| reader.polygon()).collect();
    assert!(reader.0.is_empty(), "{} bytes are left", reader.0.len());
    rings
}

/// The bytes not read yet.
struct Reader<'a>(&'a [u8]);

impl Reader<'_> {
    fn next<const N: usize>(&mut self) -> [u8; N] {
        let (next, rest) = self.0.split_first_chunk().expect("more bytes");
        self.0 = rest;
        *next
    }

    fn count(&mut self) -> u32 {
        u32::from_le_bytes(self.next())
    }

    /// How many parts there are in the shape that begins here, which has this type.
    fn parts_of(&mut self, shape: u32) -> u32 {
        assert_eq!(self.next(), [1], "the byte order");
        assert_eq!(self.count(), shape, "the type");
        self.count()
    }

    /// The only ring of a Polygon.
    fn polygon(&mut self) -> Ring {
        assert_eq!(self.parts_of(3), 1, "rings");
        let points = self.count();
        let point = |_| [0, 1].map(|_| f64::from_le_bytes(self.next()));
        (0..points).map(point).collect()
    }
}
