//! Paths: names parted by `/`.

const SLASH: u16 = b'/' as u16;

/// Whether the path is empty or each name has 1 to 31 units, none of them zero, `\`, `:` or `!`.
pub fn well_formed(path: &[u16]) -> bool {
    let mut units = 0;
    for &unit in path {
        match unit {
            SLASH if units == 0 => return false,
            SLASH => units = 0,
            0 | 0x5C | 0x3A | 0x21 => return false,
            _ if units == 31 => return false,
            _ => units += 1,
        }
    }
    path.is_empty() || units > 0
}

/// The names of a path that is well formed.
pub fn names(path: &[u16]) -> impl Iterator<Item = &[u16]> {
    path.split(|&unit| unit == SLASH).filter(|name| !name.is_empty())
}
