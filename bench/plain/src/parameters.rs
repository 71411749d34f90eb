//! The values of block 0, and the curve that they make.

use crate::block::{u16_at, u32_at, BLOCK};
use crate::curve::{Curve, Rule};
use crate::{Fault, Given};

/// The values of block 0; those that are not marked in `marks` are 0.
pub struct Parameters {
    pub year: u16,
    cost: u32,
    offset: u32,
    outage: u32,
    requirement: u32,
    margin: u32,
    marks: u8,
}

impl Parameters {
    /// Parameters that are handed in, and in no book.
    pub fn given(given: Given) -> Parameters {
        let values = [given.cost, given.offset, given.outage, given.requirement, given.margin];
        let marks = (0..5).map(|at| u8::from(values[at].is_some()) << at).sum();
        let [cost, offset, outage, requirement, margin] = values.map(Option::unwrap_or_default);
        Parameters { year: given.year, cost, offset, outage, requirement, margin, marks }
    }

    pub fn read(head: &[u8; BLOCK]) -> Parameters {
        Parameters {
            year: u16_at(head, 6),
            cost: u32_at(head, 8),
            offset: u32_at(head, 12),
            outage: u32_at(head, 16),
            requirement: u32_at(head, 20),
            margin: u32_at(head, 28),
            marks: head[26],
        }
    }

    /// The curve, or refusals 4 and 5.
    pub fn curve(&self) -> Result<Curve, Fault> {
        let by_margin = (2022..=2025).contains(&self.year);
        let given = self.marks.trailing_ones();
        if given < if by_margin { 5 } else { 4 } {
            return Err((4, given + 2));
        }
        let field = if !(2022..=2099).contains(&self.year) {
            1
        } else if !(1..=1_000_000).contains(&self.cost) {
            2
        } else if self.offset > self.cost {
            3
        } else if self.outage > 5_000 {
            4
        } else if !(1_000..=2_000_000).contains(&self.requirement) {
            5
        } else if self.margin > 5_000 || (given == 5) != by_margin {
            6
        } else {
            let rule = if by_margin { Rule::by_margin(self.margin) } else { Rule::FROM_2026 };
            return Ok(Curve::new(self.cost, self.offset, self.outage, self.requirement, rule));
        };
        Err((5, field))
    }

    /// The first field in which parameters of which all that is needed is given differ.
    pub fn differ(&self, other: &Parameters) -> Option<u32> {
        let fields = |p: &Parameters| [u32::from(p.year), p.cost, p.offset, p.outage, p.requirement, p.margin];
        (1..).zip(fields(self).into_iter().zip(fields(other))).find(|(_, (one, two))| one != two).map(|(field, _)| field)
    }
}
