//! What is given back: a refusal with its number and place, or an answer beside both counts.

#[derive(Clone, Copy, Debug, PartialEq, Eq)]
pub struct Refusal {
    pub number: u64,
    pub place: usize,
}

/// A refusal as the error of a question.
pub fn refuse<T>(number: u64, place: usize) -> Result<T, Refusal> {
    Err(Refusal { number, place })
}

#[derive(Clone, Debug, PartialEq, Eq)]
pub enum Answer {
    Solved(Vec<u8>),
    NoPlan,
    UndecidedByChecks,
    UndecidedByTrials,
    Refused(Refusal),
}

#[derive(Clone, Debug, PartialEq, Eq)]
pub struct Reply {
    pub answer: Answer,
    pub checks: u64,
    pub trials: u64,
}

impl Reply {
    pub fn undecided(&self) -> bool {
        matches!(self.answer, Answer::UndecidedByChecks | Answer::UndecidedByTrials)
    }
}

impl Answer {
    /// The answer's number on a reply line.
    pub fn number(&self) -> u64 {
        match self {
            Answer::Solved(_) => 0,
            Answer::NoPlan => 1,
            Answer::UndecidedByChecks => 2,
            Answer::UndecidedByTrials => 3,
            Answer::Refused(refusal) => 100 + refusal.number,
        }
    }

    pub fn place(&self) -> usize {
        match self {
            Answer::Refused(refusal) => refusal.place,
            _ => 0,
        }
    }
}
