//! The texts in backticks of a page.

/// A text in backticks, and the line of the page that it starts in.
#[derive(Debug, PartialEq)]
pub struct Span {
    pub line: usize,
    pub text: String,
}

/// What is cited in a page: the texts in backticks, and the lines of paragraphs that have a
/// backtick without its pair.
#[derive(Default)]
pub struct Spans {
    pub spans: Vec<Span>,
    pub unpaired: Vec<usize>,
}

/// The texts in backticks outside fenced blocks. A text may go over the end of a line, but not over
/// that of its paragraph or of its table's row.
pub fn spans(page: &str) -> Spans {
    let mut found = Spans::default();
    let mut paragraph = String::new();
    let (mut start, mut fenced) = (1, false);
    for (line, number) in page.lines().zip(1..) {
        let fence = line.trim_start().starts_with("```");
        if fence || fenced || line.trim().is_empty() || line.starts_with('|') {
            add_spans(&paragraph, start, &mut found);
            paragraph.clear();
            start = number + 1;
        }
        if fence {
            fenced = !fenced;
        } else if line.starts_with('|') && !fenced {
            add_spans(line, number, &mut found);
        } else if !fenced && !line.trim().is_empty() {
            paragraph.push_str(line);
            paragraph.push('\n');
        }
    }
    add_spans(&paragraph, start, &mut found);
    found
}

/// Adds the texts in backticks of a paragraph that starts in that line.
fn add_spans(paragraph: &str, start: usize, found: &mut Spans) {
    let pieces: Vec<&str> = paragraph.split('`').collect();
    if pieces.len() % 2 == 0 {
        found.unpaired.push(start);
        return;
    }
    let mut line = start;
    for (piece, place) in pieces.iter().zip(0..) {
        if place % 2 == 1 {
            let text = piece.split_whitespace().collect::<Vec<_>>().join(" ");
            found.spans.push(Span { line, text });
        }
        line += piece.matches('\n').count();
    }
}
