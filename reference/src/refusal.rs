//! The refusals of documents 01 and 02.
//!
//! - `Refusal`: one case for each number: those of document 01's two lists,
//!   then those that document 02 adds
//! - `Refusal::number`: the number alone, as it is handed back and printed
//! - `refuse_if`: a refusal under a condition

#[derive(Clone, Copy, Debug, PartialEq, Eq)]
pub enum Refusal {
    PlanRange = 1,
    Length = 2,
    NotElement = 3,
    AirfieldNumber = 4,
    SetNotUsable = 5,
    NotInSet = 6,
    DamagedRecord = 7,
    PlaceOrBlock = 8,
    PlanMissingOrRepeated = 11,
    WrongPhase = 12,
    OtherHeld = 13,
    NotSurvivor = 14,
    TooFew = 15,
    Unexplained = 16,
    RoundNotAbove = 17,
    SentOrFresh = 18,
    OtherSet = 19,
    BytesRunOut = 31,
    FigureBeyond = 32,
    OtherRound = 33,
}

impl Refusal {
    pub fn number(self) -> u8 {
        self as u8
    }
}

/// `Err(refusal)` if the condition holds, so that a call's refusals read as
/// a list in the order of the documents.
pub fn refuse_if(condition: bool, refusal: Refusal) -> Result<(), Refusal> {
    if condition {
        Err(refusal)
    } else {
        Ok(())
    }
}
