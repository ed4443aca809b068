//! Refusals in words.

use std::error::Error;
use std::fmt;

/// Why a call is not done: the lowest number that applies, and for 7 to 9 the place of the first element at fault. Only
/// [`crate::step`] gives 10, and tests it before 1.
#[derive(Clone, Copy, Debug, PartialEq, Eq)]
pub struct Refusal {
    /// 1 to 10.
    pub number: u32,
    /// For 9: 0 query, 1 past key, 2 key, 3 past value, 4 value. Else 0.
    pub tensor: u64,
    /// For 7 to 9 the index in the tensor as it is lent. Else 0.
    pub index: u64,
}

impl Refusal {
    /// The tensor at fault, for the refusals that name a place.
    pub fn tensor_name(&self) -> Option<&'static str> {
        match (self.number, self.tensor) {
            (7, _) => Some("live counts"),
            (8, _) => Some("mask"),
            (9, 0) => Some("query"),
            (9, 1) => Some("past key"),
            (9, 2) => Some("key"),
            (9, 3) => Some("past value"),
            (9, 4) => Some("value"),
            _ => None,
        }
    }
}

impl fmt::Display for Refusal {
    fn fmt(&self, f: &mut fmt::Formatter) -> fmt::Result {
        write!(f, "refusal {}: ", self.number)?;
        let index = self.index;
        match self.number {
            1 => f.write_str("a dimension or the total length is outside its limits, or a call that is not cached has a past"),
            2 => f.write_str("the number of query heads is not a multiple of the number of key heads"),
            3 => f.write_str(
                "the rank is not 3 or 4, the causal flag not 0 or 1, the score mode above 3, \
                 the scale not above 0 and at most 1,024, or the softcap not from 0 to 65,536",
            ),
            4 => f.write_str("a mask dimension is neither 1 nor its full size"),
            5 => f.write_str("an input tensor has the wrong length"),
            6 => f.write_str("the output, a present cache, the scores or the work row has the wrong length"),
            7 => write!(f, "live count {index} is below 0 or above the total length"),
            8 => write!(f, "element {index} of the mask is a byte above 1, a NaN or plus infinity"),
            9 => {
                let tensor = self.tensor_name().unwrap_or("unknown tensor");
                write!(f, "element {index} of the {tensor} is not a number of magnitude at most 65,536")
            }
            10 => f.write_str(
                "the call is not a step: cached, causal, rank 4, one batch, one query and one key, without mask and scores",
            ),
            _ => f.write_str("unknown"),
        }
    }
}

impl Error for Refusal {}
