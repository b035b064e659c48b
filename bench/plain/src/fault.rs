//! Refusals.

/// Why something is refused: a number of the table of faults in docs/REFERENCE.md.
#[derive(Clone, Copy, PartialEq, Eq, Debug)]
pub struct Fault(pub u16);

impl Fault {
    pub fn status(self) -> u8 {
        if self.0 >= 50 {
            5
        } else {
            3
        }
    }
}
