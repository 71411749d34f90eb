//! Why a book, parameters or rows are refused.

use crate::words;
use std::error::Error;
use std::fmt;

/// A refusal, with the place that it names. Blocks and rows count from 0; block 0 is the one with the parameters.
#[derive(Clone, Copy, Debug, PartialEq, Eq, Hash)]
#[non_exhaustive]
pub enum Refusal {
    /// 1: the length is not a multiple of 512, or under 512, or over 20,992.
    WrongLength,
    /// 2: a block's check is wrong.
    WrongCheck { block: u32 },
    /// 3: letters, edition, block number, counts, unused marks or bytes differ from the layout, or a value marked absent is
    /// not zero.
    WrongLayout { block: u32 },
    /// 4: a parameter is missing.
    MissingParameter(Field),
    /// 5: a parameter is out of range.
    ParameterOutOfRange(Field),
    /// 6: the price of an offer is missing.
    UnpricedOffer { row: u32 },
    /// 7: an offer value is out of range.
    OfferOutOfRange { row: u32 },
    /// 8: a resource number stands in an earlier row.
    RepeatedResource { row: u32 },
    /// 9: a result buffer has fewer entries than the book has offers.
    ShortBuffer(Buffer),
    /// 10: a resource's steps do not stand in neighbouring rows counted up from 1, their prices fall, or a step past 1 has a
    /// minimum block.
    BrokenSteps { row: u32 },
    /// 11: a row has a step of 2 or more, which edition 1 cannot hold.
    LaterStep { row: u32 },
    /// 19: more than 600 rows.
    TooManyRows,
    /// 20: the room lent is too small.
    ShortRoom,
    /// A number or a place that this version of the crate has no name for.
    Unnamed { number: u32, place: u32 },
}

/// A parameter of a book, by its field number.
#[derive(Clone, Copy, Debug, PartialEq, Eq, Hash)]
#[non_exhaustive]
pub enum Field {
    Year = 1,
    Cost = 2,
    Offset = 3,
    Outage = 4,
    Requirement = 5,
    Margin = 6,
}

/// A result buffer.
#[derive(Clone, Copy, Debug, PartialEq, Eq, Hash)]
#[non_exhaustive]
pub enum Buffer {
    Cleared = 1,
    Committed = 2,
}

const FIELDS: [Field; 6] = [Field::Year, Field::Cost, Field::Offset, Field::Outage, Field::Requirement, Field::Margin];
const BUFFERS: [Buffer; 2] = [Buffer::Cleared, Buffer::Committed];

impl Field {
    /// The parameter of a field number.
    pub fn of(number: u32) -> Option<Field> {
        FIELDS.get((number as usize).wrapping_sub(1)).copied()
    }
}

impl Refusal {
    /// The refusal's number in the table.
    pub fn number(self) -> u32 {
        match self {
            Refusal::WrongLength => 1,
            Refusal::WrongCheck { .. } => 2,
            Refusal::WrongLayout { .. } => 3,
            Refusal::MissingParameter(_) => 4,
            Refusal::ParameterOutOfRange(_) => 5,
            Refusal::UnpricedOffer { .. } => 6,
            Refusal::OfferOutOfRange { .. } => 7,
            Refusal::RepeatedResource { .. } => 8,
            Refusal::ShortBuffer(_) => 9,
            Refusal::BrokenSteps { .. } => 10,
            Refusal::LaterStep { .. } => 11,
            Refusal::TooManyRows => 19,
            Refusal::ShortRoom => 20,
            Refusal::Unnamed { number, .. } => number,
        }
    }

    /// The place in the table's numbers: a block, a field, a row or a buffer, else 0.
    pub fn place(self) -> u32 {
        match self {
            Refusal::WrongLength | Refusal::TooManyRows | Refusal::ShortRoom => 0,
            Refusal::WrongCheck { block } | Refusal::WrongLayout { block } => block,
            Refusal::MissingParameter(field) | Refusal::ParameterOutOfRange(field) => field as u32,
            Refusal::UnpricedOffer { row } | Refusal::OfferOutOfRange { row } => row,
            Refusal::RepeatedResource { row } | Refusal::BrokenSteps { row } | Refusal::LaterStep { row } => row,
            Refusal::ShortBuffer(buffer) => buffer as u32,
            Refusal::Unnamed { place, .. } => place,
        }
    }

    /// The refusal of a number and a place, as the library answers them.
    pub fn of(number: u32, place: u32) -> Refusal {
        let at = (place as usize).wrapping_sub(1);
        let named = match number {
            1 if place == 0 => Some(Refusal::WrongLength),
            2 => Some(Refusal::WrongCheck { block: place }),
            3 => Some(Refusal::WrongLayout { block: place }),
            4 => Field::of(place).map(Refusal::MissingParameter),
            5 => Field::of(place).map(Refusal::ParameterOutOfRange),
            6 => Some(Refusal::UnpricedOffer { row: place }),
            7 => Some(Refusal::OfferOutOfRange { row: place }),
            8 => Some(Refusal::RepeatedResource { row: place }),
            9 => BUFFERS.get(at).copied().map(Refusal::ShortBuffer),
            10 => Some(Refusal::BrokenSteps { row: place }),
            11 => Some(Refusal::LaterStep { row: place }),
            19 if place == 0 => Some(Refusal::TooManyRows),
            20 if place == 0 => Some(Refusal::ShortRoom),
            _ => None,
        };
        named.unwrap_or(Refusal::Unnamed { number, place })
    }
}

impl fmt::Display for Field {
    fn fmt(&self, f: &mut fmt::Formatter) -> fmt::Result {
        f.write_str(match self {
            Field::Year => "delivery year",
            Field::Cost => "cost of new entry",
            Field::Offset => "revenue offset",
            Field::Outage => "forced outage rate",
            Field::Requirement => "reliability requirement",
            Field::Margin => "reserve margin",
        })
    }
}

impl fmt::Display for Buffer {
    fn fmt(&self, f: &mut fmt::Formatter) -> fmt::Result {
        f.write_str(match self {
            Buffer::Cleared => "cleared",
            Buffer::Committed => "committed",
        })
    }
}

/// Number and place, then the library's own words for the number.
impl fmt::Display for Refusal {
    fn fmt(&self, f: &mut fmt::Formatter) -> fmt::Result {
        let (number, place) = (self.number(), self.place());
        write!(f, "refused {number} at ")?;
        match self {
            Refusal::WrongCheck { .. } | Refusal::WrongLayout { .. } => write!(f, "block {place}"),
            Refusal::MissingParameter(field) | Refusal::ParameterOutOfRange(field) => write!(f, "field {place} ({field})"),
            Refusal::UnpricedOffer { .. } | Refusal::OfferOutOfRange { .. } => write!(f, "row {place}"),
            Refusal::RepeatedResource { .. } | Refusal::BrokenSteps { .. } => write!(f, "row {place}"),
            Refusal::LaterStep { .. } => write!(f, "row {place}"),
            Refusal::ShortBuffer(buffer) => write!(f, "buffer {place} ({buffer})"),
            _ => write!(f, "{place}"),
        }?;
        let words = words(number).unwrap_or_default();
        write!(f, ": {}", words.rsplit_once("; ").map_or(&words[..], |(when, _)| when))
    }
}

impl Error for Refusal {}
