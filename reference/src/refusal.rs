//! The numbered questions of document 01, *Questions, asked downward*, and of
//! document 02. A refusal is the first question that was answered by no.
//! Question 17 is asked of tables only (`table`): here a network is a term.

use std::fmt;

/// A question answered by no. The discriminant is the question's number.
#[derive(Clone, Copy, Debug, PartialEq, Eq, PartialOrd, Ord)]
#[repr(u8)]
pub enum Refusal {
    /// 1: the text has more than 65,535 bytes.
    TooLong = 1,
    /// 2: the text is not of the form.
    NotOfForm = 2,
    /// 3: nesting above 32.
    TooDeep = 3,
    /// 4: one of the counts is above its limit.
    TooLarge = 4,
    /// 5: an identifier is defined twice, or a definition repeats a parameter.
    DefinedTwice = 5,
    /// 6: a called identifier is not defined with that many arguments.
    NotDefined = 6,
    /// 7: a variable is not bound.
    NotBound = 7,
    /// 8: a kind, position or location number is out of range.
    OutOfRange = 8,
    /// 9: a component of the action is marked.
    Marked = 9,
    /// 10: a component is not of the form that the kind needs.
    WrongForm = 10,
    /// 11: output and input differ in location or channel.
    Apart = 11,
    /// 12: the tick is not allowed.
    Forced = 12,
    /// 13: more than 256 components afterwards.
    TableFull = 13,
    /// 14: a network with a mark cannot be written.
    MarkedText = 14,
    /// 15: the lent buffer is too short.
    BufferShort = 15,
    /// 16: an action of the proposal fires at another location.
    Elsewhere = 16,
    /// 18, asked after 11 and 20, and in a step after 15: the count of messages is
    /// full.
    MessagesFull = 18,
    /// 20, asked after 11: the action lacks its right.
    NoRight = 20,
    /// 21, asked before 1: the edition is neither 1 nor 2.
    NoEdition = 21,
    /// 26, asked in a conforming step after 8: the location does not conform.
    NotConforming = 26,
}

impl Refusal {
    /// The question's number.
    pub fn number(self) -> u8 {
        self as u8
    }
}

/// A question with its answer.
pub(crate) fn ask(yes: bool, refusal: Refusal) -> Result<(), Refusal> {
    if yes {
        Ok(())
    } else {
        Err(refusal)
    }
}

impl fmt::Display for Refusal {
    fn fmt(&self, f: &mut fmt::Formatter<'_>) -> fmt::Result {
        write!(f, "refused {}", self.number())
    }
}

impl std::error::Error for Refusal {}
