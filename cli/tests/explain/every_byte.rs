//! Every byte of the small samples changed, one at a time.

use crate::compare::Seen;
use crate::images;

#[test]
fn every_byte_of_the_small_samples() {
    let mut seen = Seen::default();
    for (name, bytes) in images::samples().into_iter().filter(|(_, bytes)| bytes.len() <= 7_680) {
        for at in 0..bytes.len() {
            for mask in [0x01, 0x80, 0xFF] {
                let mut changed = bytes.clone();
                changed[at] ^= mask;
                seen.compare(&format!("{name}, byte {at} by {mask:02X}"), &changed);
            }
        }
    }
    seen.report("every byte changed");
}
