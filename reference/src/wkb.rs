//! Well-Known Binary, the OGC's layout of shapes as bytes: document 02's request A.4.

use crate::geometry::Rectangle;

/// 'Byte order 1': little-endian.
const LITTLE_ENDIAN: u8 = 1;

const POLYGON: u32 = 3;
const GEOMETRY_COLLECTION: u32 = 7;

/// 'Byte order 1, type 7 (GeometryCollection), the rectangle count, then per rectangle a Polygon.'
/// 'Rectangles are written in their order.'
pub fn polygon_bytes(rectangles: &[Rectangle]) -> Vec<u8> {
    let count = u32::try_from(rectangles.len()).expect("a count of 32 bits");
    let mut bytes = header(GEOMETRY_COLLECTION, count);
    for &rectangle in rectangles {
        bytes.extend(rectangle_bytes(rectangle));
    }
    bytes
}

/// 'A Polygon (byte order 1, type 3, one ring, five points).'
fn rectangle_bytes(rectangle: Rectangle) -> Vec<u8> {
    let ring = ring(rectangle);
    let mut bytes = header(POLYGON, 1);
    bytes.extend((ring.len() as u32).to_le_bytes());
    for coordinate in ring.concat() {
        // 'Coordinates are doubles of the exact whole numbers.'
        bytes.extend(f64::from(coordinate).to_le_bytes());
    }
    bytes
}

/// 'The ring starts at ll, runs counterclockwise and closes.'
fn ring(Rectangle { ll, ur }: Rectangle) -> [[u32; 2]; 5] {
    let (lower_right, upper_left) = ([ur[0], ll[1]], [ll[0], ur[1]]);
    [ll, lower_right, ur, upper_left, ll]
}

/// The byte order, the type of the shape, and how many parts it has.
fn header(shape: u32, parts: u32) -> Vec<u8> {
    let mut bytes = vec![LITTLE_ENDIAN];
    bytes.extend(shape.to_le_bytes());
    bytes.extend(parts.to_le_bytes());
    bytes
}
