//! Damage to the numbers of an image.

use reference::random::Random;

/// A number of the index, by its place, and what it becomes.
pub type Change = (usize, u32);

/// What each number is changed to, one change at a time.
pub fn single_values(number: u32) -> [u32; 8] {
    let (less, more) = (number.wrapping_sub(1), number.wrapping_add(1));
    [0, 1, less, more, 65536, 65537, 1 << 31, u32::MAX]
}

/// Every change of one number of the image at the given place.
pub fn single_changes(image: &[u32], place: usize) -> Vec<Change> {
    let mut values = single_values(image[place]).to_vec();
    values.retain(|&value| value != image[place]);
    values.sort_unstable();
    values.dedup();
    values.into_iter().map(|value| (place, value)).collect()
}

/// A few random changes at once: bits flipped, numbers copied or exchanged or set.
pub fn random_changes(image: &[u32], random: &mut Random) -> Vec<Change> {
    let count = random.pick(&[1, 1, 2, 3]);
    let mut changes = Vec::new();
    for _ in 0..count {
        let (a, b) = (place(image, random), place(image, random));
        match random.between(0, 3) {
            0 => changes.push((a, image[a] ^ 1 << random.between(0, 31))),
            1 => changes.push((a, image[b])),
            2 => changes.extend([(a, image[b]), (b, image[a])]),
            _ => changes.push((a, random.pick(&single_values(image[a])))),
        }
    }
    changes
}

/// A place, mostly of a number that is not zero or next to one.
fn place(image: &[u32], random: &mut Random) -> usize {
    let any = random.between(0, image.len() as u32 - 1) as usize;
    if random.one_in(6) {
        return any;
    }
    let mut places = (any..image.len()).chain(0..any);
    let used = places.find(|&i| image[i] != 0).unwrap_or(any);
    let next = used + random.pick(&[0, 0, 1]);
    next.min(image.len() - 1)
}
