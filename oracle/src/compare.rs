//! Compares two streams of answers, byte for byte but for the reasons of bad lines, and shows the history of the first difference.

use std::fs::File;
use std::io::{self, BufRead, BufReader, Write};

pub fn compare(left: &str, right: &str, out: &mut dyn Write) -> io::Result<bool> {
    let open = |name: &str| File::open(name).map(|file| BufReader::with_capacity(1 << 16, file));
    let (mut left, mut right) = (open(left)?, open(right)?);
    let (mut a, mut b) = (Vec::new(), Vec::new());
    // What both sides have answered since the last table was made.
    let mut history: Vec<u8> = Vec::new();
    let (mut lines, mut histories, mut bad) = (0u64, 0u64, 0u64);
    loop {
        a.clear();
        b.clear();
        left.read_until(b'\n', &mut a)?;
        right.read_until(b'\n', &mut b)?;
        if judged(&a) != judged(&b) {
            writeln!(
                out,
                "{lines} lines are the same; line {} differs. Its history:",
                lines + 1
            )?;
            out.write_all(&history)?;
            writeln!(out, "the Rust:  {}", shown(&a))?;
            writeln!(out, "replay:    {}", shown(&b))?;
            return Ok(false);
        }
        if a.is_empty() {
            if lines == 0 {
                writeln!(out, "both sides are empty: nothing was compared")?;
                return Ok(false);
            }
            writeln!(
                out,
                "{} calls of {histories} histories and {bad} bad lines compared: no difference",
                lines - bad
            )?;
            return Ok(true);
        }
        lines += 1;
        if a.starts_with(b"? ") {
            bad += 1;
        } else {
            let text = crate::history::text(&a);
            if a.starts_with(b"new ") && !a.ends_with(b" | 8\n") {
                history.clear();
                histories += 1;
            }
            history.extend_from_slice(text);
            history.push(b'\n');
        }
    }
}

/// A line that begins with `?` counts up to its number, every other line whole.
fn judged(line: &[u8]) -> &[u8] {
    match line.strip_prefix(b"? ") {
        Some(rest) => &line[..2 + rest.iter().take_while(|b| b.is_ascii_digit()).count()],
        None => line,
    }
}

fn shown(line: &[u8]) -> String {
    if line.is_empty() {
        return "(the end)".to_string();
    }
    let text = String::from_utf8_lossy(line);
    match text.strip_suffix('\n') {
        Some(text) => text.to_string(),
        None => format!("{text} (no end of line)"),
    }
}
