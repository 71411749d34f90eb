//! The requirement curve.

/// The quantities and prices of the three points; the third price is 0.
pub struct Curve {
    q1: u64,
    q2: u64,
    q3: u64,
    p1: u64,
    p2: u64,
}

/// A price: whole cents, and a remainder over its divisor.
#[derive(Clone, Copy, Debug, PartialEq, Eq)]
pub struct ExactPrice {
    pub cents: u32,
    pub remainder: u32,
    pub divisor: u32,
}

/// What the net cost is taken by at the first point, in quarters, and the requirement at each point, over a whole.
pub struct Rule {
    first: u64,
    parts: [u64; 3],
    whole: u64,
}

impl Rule {
    pub const FROM_2026: Rule = Rule { first: 7, parts: [9_900, 10_150, 10_450], whole: 10_000 };

    /// The years 2022 to 2025.
    pub fn by_margin(margin: u32) -> Rule {
        let whole = 10_000 + u64::from(margin);
        Rule { first: 6, parts: [whole - 120, whole + 190, whole + 780], whole }
    }
}

impl Curve {
    pub fn new(cost: u32, offset: u32, outage: u32, requirement: u32, rule: Rule) -> Curve {
        let (cost, net, requirement) = (u64::from(cost), u64::from(cost - offset), u64::from(requirement));
        let days = 1_460 * (10_000 - u64::from(outage));
        Curve {
            q1: nearest(requirement * rule.parts[0], rule.whole),
            q2: nearest(requirement * rule.parts[1], rule.whole),
            q3: nearest(requirement * rule.parts[2], rule.whole),
            p1: nearest((4 * cost).max(rule.first * net) * 1_000_000, days),
            p2: nearest(3 * net * 1_000_000, days),
        }
    }

    /// The price at a quantity up to the last point.
    pub fn price_at(&self, k: u64) -> u64 {
        if k <= self.q1 {
            self.p1
        } else if k <= self.q2 {
            (self.p1 * (self.q2 - k) + self.p2 * (k - self.q1)) / (self.q2 - self.q1)
        } else {
            self.p2 * (self.q3 - k) / (self.q3 - self.q2)
        }
    }

    /// The price at any quantity, between cents.
    pub fn exact_at(&self, k: u64) -> Option<ExactPrice> {
        let (parts, divisor) = if k <= self.q1 {
            (self.p1, 1)
        } else if k <= self.q2 {
            (self.p1 * (self.q2 - k) + self.p2 * (k - self.q1), self.q2 - self.q1)
        } else if k <= self.q3 {
            (self.p2 * (self.q3 - k), self.q3 - self.q2)
        } else {
            return None;
        };
        Some(ExactPrice { cents: (parts / divisor) as u32, remainder: (parts % divisor) as u32, divisor: divisor as u32 })
    }

    /// Whether the price at a quantity is at least this one, which is not over the highest.
    pub fn buys(&self, k: u64, price: u64) -> bool {
        k <= self.q1 || k <= self.q3 && self.price_at(k) >= price
    }

    /// The last quantity whose price is at least this one, which is not over the highest.
    pub fn last_at(&self, price: u64) -> u64 {
        if price == 0 {
            self.q3
        } else if price <= self.p2 {
            self.q2 + (self.p2 - price) * (self.q3 - self.q2) / self.p2
        } else {
            self.q1 + (self.p1 - price) * (self.q2 - self.q1) / (self.p1 - self.p2)
        }
    }

    /// The highest price.
    pub fn highest(&self) -> u64 {
        self.p1
    }
}

/// The nearest whole number to a quotient; a half goes upward.
fn nearest(above: u64, under: u64) -> u64 {
    (above + under / 2) / under
}
