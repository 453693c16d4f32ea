//! Stand-in for the `unicode_width` crate: the same traits, with the columns of
//! document 01 ("Columns of a character") in place of the Unicode tables.

/// First code point, last code point, columns; sorted.
pub const TABLE: [(u32, u32, usize); 19] = [
    (0x0020, 0x007E, 1),
    (0x00A0, 0x00AC, 1),
    (0x00AE, 0x017F, 1),
    (0x0300, 0x0337, 0),
    (0x0339, 0x036F, 0),
    (0x0391, 0x03A1, 1),
    (0x03A3, 0x03C9, 1),
    (0x0410, 0x044F, 1),
    (0x2000, 0x200A, 1),
    (0x200B, 0x200B, 0),
    (0x2500, 0x257F, 1),
    (0x3000, 0x3000, 2),
    (0x3001, 0x3002, 2),
    (0x3041, 0x3096, 2),
    (0x30A1, 0x30FA, 2),
    (0x4E00, 0x9FFF, 2),
    (0xAC00, 0xD7A3, 2),
    (0xFF01, 0xFF60, 2),
    (0xFF61, 0xFF9D, 1),
];

/// A character's columns; `None` for controls and characters off the list.
pub fn columns(c: char) -> Option<usize> {
    let code = u32::from(c);
    // Printable ASCII is asked for first, so that a benchmark does not charge the Rust with a search for it.
    if (0x20..=0x7E).contains(&code) {
        return Some(1);
    }
    let place = TABLE.partition_point(|&(_, last, _)| last < code);
    match TABLE.get(place) {
        Some(&(first, _, columns)) if first <= code => Some(columns),
        _ => None,
    }
}

/// The trait of the same name in `unicode_width`.
pub trait UnicodeWidthChar {
    /// The columns of a character, if it has any count.
    fn width(self) -> Option<usize>;
}

impl UnicodeWidthChar for char {
    fn width(self) -> Option<usize> {
        columns(self)
    }
}

/// The trait of the same name in `unicode_width`.
pub trait UnicodeWidthStr {
    /// The columns of a string: the sum of its characters'.
    fn width(&self) -> usize;
}

impl UnicodeWidthStr for str {
    fn width(&self) -> usize {
        self.chars().map(|c| columns(c).unwrap_or(0)).sum()
    }
}

#[cfg(test)]
mod tests {
    use super::*;

    #[test]
    fn the_table_is_sorted_without_overlap() {
        for pair in TABLE.windows(2) {
            assert!(pair[0].1 < pair[1].0);
        }
        assert!(TABLE.iter().all(|&(first, last, _)| first <= last));
    }

    #[test]
    fn columns_at_the_edges() {
        let expected = [
            ('\0', None),
            ('\u{1f}', None),
            (' ', Some(1)),
            ('~', Some(1)),
            ('\u{7f}', None),
            ('\u{9f}', None),
            ('\u{a0}', Some(1)),
            ('\u{ad}', None),
            ('\u{180}', None),
            ('\u{337}', Some(0)),
            ('\u{338}', None),
            ('\u{3a2}', None),
            ('\u{200b}', Some(0)),
            ('\u{200c}', None),
            ('\u{3000}', Some(2)),
            ('\u{3003}', None),
            ('\u{6f22}', Some(2)),
            ('\u{ff60}', Some(2)),
            ('\u{ff61}', Some(1)),
            ('\u{ff9e}', None),
            ('\u{1f600}', None),
        ];
        for (c, columns_of_c) in expected {
            assert_eq!(columns(c), columns_of_c, "{c:?}");
        }
    }
}
