//! The parameters of a region, and the curve that they make.

use crate::curve::{curve, curve_by_margin, Point};

/// The values of block 0. A value that is not given is `None`, never 0.
#[derive(Clone, Debug, PartialEq, Eq)]
pub struct Parameters {
    pub year: u32,
    pub cost: Option<u32>,
    pub offset: Option<u32>,
    pub outage: Option<u32>,
    pub requirement: Option<u32>,
    pub margin: Option<u32>,
}

impl Parameters {
    /// Whether the delivery year is one of those whose curve goes by the reserve margin.
    pub fn by_margin(&self) -> bool {
        (2022..=2025).contains(&self.year)
    }

    /// The curve of parameters that are in range, all that the year needs being given.
    pub fn curve(&self) -> [Point; 3] {
        let (Some(cost), Some(offset), Some(outage), Some(requirement)) =
            (self.cost, self.offset, self.outage, self.requirement)
        else {
            panic!("a parameter is missing")
        };
        if self.by_margin() {
            curve_by_margin(cost, offset, outage, requirement, self.margin.expect("a margin"))
        } else {
            curve(cost, offset, outage, requirement)
        }
    }
}
