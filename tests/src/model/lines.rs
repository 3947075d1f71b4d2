//! The listing as the rows give it: paths sorted name by name, a storage's own before those below it.

use super::{Model, Row};

impl Model {
    /// The rows below the root in the order of their lines.
    pub fn in_order(&self) -> Vec<&Row> {
        let mut rows: Vec<&Row> = self.rows[1..].iter().collect();
        rows.sort_by(|one, other| one.key.cmp(&other.key));
        rows
    }

    pub fn listing(&self) -> Vec<u8> {
        let mut text = format!("objects {}\n", self.rows.len() - 1).into_bytes();
        for row in self.in_order() {
            text.extend(row.line().bytes());
            text.push(10);
        }
        text
    }
}

impl Row {
    fn line(&self) -> String {
        let mut line = match &self.bytes {
            Some(bytes) => format!("F {}", bytes.len()),
            None => "D 0".to_string(),
        };
        for (i, name) in self.path.iter().enumerate() {
            line.push(if i == 0 { ' ' } else { '/' });
            for &unit in name {
                match u8::try_from(unit) {
                    Ok(byte) if byte == b' ' || byte.is_ascii_graphic() => line.push(byte as char),
                    _ => line += &format!("\\{:02X}{:02X}", unit >> 8, unit & 255),
                }
            }
        }
        line
    }
}
