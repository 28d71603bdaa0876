/// Why a call is turned down. The number of each is document 01's, from 15 on document 02's.
#[derive(Clone, Copy, Debug, PartialEq, Eq)]
#[repr(u8)]
pub enum Refusal {
    FaultyLine = 1,
    OutOfOrder = 2,
    CountDiffers = 3,
    BadUnitCount = 4,
    OddWords = 5,
    TooManyLinks = 6,
    EndMissing = 7,
    EqualEnds = 8,
    RepeatedLink = 9,
    NotKept = 10,
    Finished = 11,
    NotFinished = 12,
    NoSuchName = 13,
    TooShort = 14,
    LevelsDiffer = 15,
    LevelOutside = 16,
    ParentsDiffer = 17,
    PlanUnfit = 18,
    BadPairs = 19,
    NoOrder = 20,
    NoSuchLink = 21,
    UnlinkedUnit = 22,
    NoSuchSeat = 23,
}

impl Refusal {
    pub fn number(self) -> u8 {
        self as u8
    }
}
