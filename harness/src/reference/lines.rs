//! The lines of a table.

/// 01: "A row is a line ended by LF". `bytes` are those before the LF; `start` is their place in the table.
#[derive(Clone, Copy)]
pub struct Line<'a> {
    pub start: usize,
    pub bytes: &'a [u8],
    pub ended: bool,
}

/// 01: "Bytes after the last LF are one row": a last line that isn't ended.
pub fn lines(table: &[u8]) -> impl Iterator<Item = Line<'_>> {
    let mut next = 0;
    table.split_inclusive(|&byte| byte == b'\n').map(move |part| {
        let start = next;
        next += part.len();
        match part {
            [bytes @ .., b'\n'] => Line { start, bytes, ended: true },
            bytes => Line { start, bytes, ended: false },
        }
    })
}

pub fn count_lines(table: &[u8]) -> usize {
    let ended = table.iter().filter(|&&byte| byte == b'\n').count();
    ended + usize::from(table.last().is_some_and(|&byte| byte != b'\n'))
}
