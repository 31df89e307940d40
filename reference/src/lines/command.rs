//! Commands read from lines.

use super::LINE_LIMIT;
use crate::geometry::{Cell, Rectangle};

/// What a line asks for.
#[derive(Clone, Copy, Debug, PartialEq, Eq)]
pub enum Command {
    Insert { cell: Cell, tag: u32 },
    Remove { cell: Cell },
    Point { cell: Cell },
    Window { window: Rectangle },
    Clear,
}

/// The command of a line without its LF; none for other lines.
pub fn read_command(line: &[u8]) -> Option<Command> {
    if line.len() > LINE_LIMIT {
        return None;
    }
    let (&letter, fields) = line.split_first()?;
    let fields = read_fields(fields)?;
    match (letter, fields.as_slice()) {
        (b'I', &[x, y, tag]) => Some(Command::Insert { cell: [x, y], tag }),
        (b'R', &[x, y]) => Some(Command::Remove { cell: [x, y] }),
        (b'P', &[x, y]) => Some(Command::Point { cell: [x, y] }),
        (b'S', &[llx, lly, urx, ury]) => Some(Command::Window {
            window: Rectangle::new(llx, lly, urx, ury),
        }),
        (b'C', &[]) => Some(Command::Clear),
        _ => None,
    }
}

/// Fields 'after one space each'.
fn read_fields(mut bytes: &[u8]) -> Option<Vec<u32>> {
    let mut fields = Vec::new();
    while let Some((&first, rest)) = bytes.split_first() {
        if first != b' ' {
            return None;
        }
        let end = rest.iter().position(|&b| b == b' ').unwrap_or(rest.len());
        fields.push(read_field(&rest[..end])?);
        bytes = &rest[end..];
    }
    Some(fields)
}

/// 'Fields are decimal, 1 to 10 digits, at most 4294967295.'
fn read_field(digits: &[u8]) -> Option<u32> {
    if !(1..=10).contains(&digits.len()) {
        return None;
    }
    let mut value: u64 = 0;
    for &digit in digits {
        if !digit.is_ascii_digit() {
            return None;
        }
        value = 10 * value + u64::from(digit - b'0');
    }
    u32::try_from(value).ok()
}
