//! The checked numbers. A value is made from any 32-bit number, or refused.

use std::num::NonZeroU32;

/// Why a call was refused. The discriminants are the numbers that clients see.
#[derive(Clone, Copy, PartialEq, Eq, Debug)]
#[repr(u8)]
pub enum Refusal {
    NoPrice = 1,
    NoStep = 2,
    RangeReversed = 3,
    NoHold = 4,
    NoAveragingDays = 5,
    NoLimit = 7,
    NoShare = 10,
    ListedAlready = 11,
    NotListed = 12,
    TooManyCloses = 13,
    StaleDay = 14,
    CloseOutsideLimits = 15,
    NoDay = 16,
    BadMoment = 17,
    BadPhase = 18,
    TooFewPlaces = 19,
    NumberZero = 20,
    NumberTaken = 21,
    NoRowFree = 22,
    BadQuantity = 23,
    BadTotal = 24,
    BadChoice = 25,
    LapsesAtOnce = 26,
    NoSuchOrder = 27,
    UnderClaim = 28,
    VoidTicket = 29,
    ForeignTicket = 30,
}

impl Refusal {
    pub fn number(self) -> u8 {
        self as u8
    }
}

/// Whole ten-thousandths of a yuan. Not zero, so that a missing price takes no more room than one that is there.
#[derive(Clone, Copy, PartialEq, Eq, PartialOrd, Ord, Debug)]
pub struct Price(NonZeroU32);

impl Price {
    pub const LEAST: u32 = 1_000;
    pub const GREATEST: u32 = 999_999_999;

    pub fn new(units: u32) -> Result<Self, Refusal> {
        match NonZeroU32::new(units) {
            Some(n) if (Self::LEAST..=Self::GREATEST).contains(&units) => Ok(Self(n)),
            _ => Err(Refusal::NoPrice),
        }
    }

    /// A price, or nothing for 0.
    pub fn new_or_missing(units: u32) -> Result<Option<Self>, Refusal> {
        if units == 0 { Ok(None) } else { Self::new(units).map(Some) }
    }

    pub fn get(self) -> u32 {
        self.0.get()
    }
}

/// Hundredths of a percent.
#[derive(Clone, Copy, PartialEq, Eq, Debug)]
pub struct Percentage(u32);

impl Percentage {
    pub fn new(hundredths: u32) -> Result<Self, Refusal> {
        if (10..=5_000).contains(&hundredths) { Ok(Self(hundredths)) } else { Err(Refusal::NoStep) }
    }
}

/// Ten-thousandths of a yuan between two prices.
#[derive(Clone, Copy, PartialEq, Eq, Debug)]
pub struct Difference(u32);

impl Difference {
    pub fn new(units: u32) -> Result<Self, Refusal> {
        if (1..=Price::GREATEST).contains(&units) { Ok(Self(units)) } else { Err(Refusal::NoStep) }
    }
}

#[derive(Clone, Copy, PartialEq, Eq, Debug)]
pub enum Step {
    Percentage(Percentage),
    Difference(Difference),
}

/// Two prices and all between them.
#[derive(Clone, Copy, PartialEq, Eq, Debug)]
pub struct PriceRange {
    low: Price,
    high: Price,
}

impl PriceRange {
    pub fn new(low: Price, high: Price) -> Result<Self, Refusal> {
        if low <= high { Ok(Self { low, high }) } else { Err(Refusal::RangeReversed) }
    }

    pub fn contains(self, units: u32) -> bool {
        (self.low.get()..=self.high.get()).contains(&units)
    }
}

/// Seconds for which a test has to hold.
#[derive(Clone, Copy, PartialEq, Eq, Debug)]
pub struct Hold(u32);

impl Hold {
    pub fn new(seconds: u32) -> Result<Self, Refusal> {
        if (1..=14_400).contains(&seconds) { Ok(Self(seconds)) } else { Err(Refusal::NoHold) }
    }

    pub fn seconds(self) -> u32 {
        self.0
    }
}

/// The days of an average.
#[derive(Clone, Copy, PartialEq, Eq, Debug)]
pub enum AveragingDays {
    Five,
    Ten,
    Twenty,
    Thirty,
    Sixty,
}

impl AveragingDays {
    pub const ALL: [Self; 5] = [Self::Five, Self::Ten, Self::Twenty, Self::Thirty, Self::Sixty];

    pub fn new(days: u32) -> Result<Self, Refusal> {
        Self::ALL.into_iter().find(|d| d.days() == days).ok_or(Refusal::NoAveragingDays)
    }

    pub fn days(self) -> u32 {
        match self {
            Self::Five => 5,
            Self::Ten => 10,
            Self::Twenty => 20,
            Self::Thirty => 30,
            Self::Sixty => 60,
        }
    }
}

/// How far a slip's price may lie beyond its trigger price, in hundredths of a percent.
#[derive(Clone, Copy, PartialEq, Eq, Debug)]
pub struct Limit(u32);

impl Limit {
    pub fn new(hundredths: u32) -> Result<Self, Refusal> {
        if hundredths <= 10_000 { Ok(Self(hundredths)) } else { Err(Refusal::NoLimit) }
    }

    /// Whether a price so far from the trigger price is too far.
    pub fn exceeded_by(self, difference: u32, trigger: Price) -> bool {
        u64::from(difference) * 10_000 > u64::from(self.0) * u64::from(trigger.get())
    }
}

#[derive(Clone, Copy, PartialEq, Eq, Debug)]
pub enum Direction {
    Rising,
    Falling,
}

impl Direction {
    pub fn opposite(self) -> Self {
        match self {
            Self::Rising => Self::Falling,
            Self::Falling => Self::Rising,
        }
    }

    /// Whether `there` lies at `mark` or beyond it.
    pub fn passes<T: PartialOrd>(self, mark: T, there: T) -> bool {
        match self {
            Self::Rising => there >= mark,
            Self::Falling => there <= mark,
        }
    }

    /// The price that lies a step beyond the base. It may be no price, so it is a plain number.
    pub fn target(self, base: Price, step: Step) -> u32 {
        let base = base.get();
        match (self, step) {
            (Self::Rising, Step::Percentage(p)) => scaled(base, 10_000 + p.0),
            (Self::Falling, Step::Percentage(p)) => scaled(base, 10_000 - p.0),
            // Twice the greatest price is still far below 2^32.
            (Self::Rising, Step::Difference(d)) => base + d.0,
            (Self::Falling, Step::Difference(d)) => base.saturating_sub(d.0),
        }
    }

    /// The target, if the price has reached it. One that is reached is always a price.
    pub fn reached(self, target: u32, price: Price) -> Option<Price> {
        if self.passes(target, price.get()) { Price::new(target).ok() } else { None }
    }
}

fn scaled(base: u32, ten_thousandths: u32) -> u32 {
    // At most 999,999,999 × 15,000 ÷ 10,000, which fits.
    (u64::from(base) * u64::from(ten_thousandths) / 10_000) as u32
}
