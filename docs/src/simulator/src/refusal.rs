//! The refusals of the manual, each with its number.

#[derive(Clone, Copy, Debug, PartialEq, Eq)]
#[repr(u8)]
pub enum Refusal {
    TooLong = 1,
    BadByte = 2,
    NoCommand = 3,
    WrongWordCount = 4,
    WrongKindOfWord = 5,
    ChainNotServed = 6,
    SameChain = 7,
    TooManyLinks = 8,
    TooManyChannels = 9,
    ChannelNotInUse = 10,
    NoSuchLink = 11,
    NoSuchUser = 12,
    NothingToMove = 13,
    NotRegistered = 14,
    HasHops = 15,
    LinkClosed = 16,
    TimeoutPassed = 17,
    NoSuchPacket = 18,
    NoLongerStands = 19,
    Expired = 20,
    NotExpired = 21,
    TooManyPackets = 22,
    RegisterFull = 23,
    HeightTooLarge = 24,
    Marked = 25,
    LowerUnmarked = 26,
    NoMark = 27,
    HasMark = 28,
    LowerStands = 29,
    Barred = 31,
    BalanceTooSmall = 32,
    SupplyTooLarge = 33,
    RefundRefused = 34,
}

impl Refusal {
    pub fn number(self) -> u8 {
        self as u8
    }

    pub fn layer(self) -> &'static str {
        match self.number() {
            1..=5 => "script",
            25..=28 => "book",
            30..=34 => "ledger",
            _ => "world",
        }
    }
}
