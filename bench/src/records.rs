//! The records in which calls are handed over: a letter and its operands, numbers with their highest byte first.

use crate::market::{RawDay, RawQuote};

/// Why a record cannot be carried out. The discriminants are the statuses of a run.
#[derive(Clone, Copy, PartialEq, Eq, Debug)]
#[repr(u32)]
pub enum Fault {
    UnknownLetter = 50,
    CutShort = 51,
    NoSuchOperand = 52,
}

#[derive(Clone, Copy, PartialEq, Eq, Debug)]
pub enum BookName {
    Single,
    Series,
}

/// Numbers of four bytes that stand one after another.
#[derive(Clone, Copy, Debug)]
pub struct Numbers<'a>(&'a [[u8; 4]]);

impl Numbers<'_> {
    pub fn iter(&self) -> impl ExactSizeIterator<Item = u32> + '_ {
        self.0.iter().map(|bytes| u32::from_be_bytes(*bytes))
    }
}

/// Quotes that stand one after another.
#[derive(Clone, Copy, Debug)]
pub struct Quotes<'a>(&'a [[u8; QUOTE]]);

impl Quotes<'_> {
    pub fn iter(&self) -> impl ExactSizeIterator<Item = RawQuote> + '_ {
        self.0.iter().map(|bytes| Reader(bytes).quote())
    }
}

pub enum Call<'a> {
    List { share: u8, closes: Numbers<'a> },
    Day { share: u8, day: RawDay },
    Places(u32),
    Place(Placing),
    Quote(RawQuote),
    Burst(Quotes<'a>),
    Cancel { book: BookName, number: u32 },
    Claim { book: BookName, number: u32 },
    Settle { book: BookName, ticket: u32, price: u32 },
    State { book: BookName, number: u32 },
}

/// The operands of a placing. What stands for nothing is ruled out; no value is made of them yet.
#[derive(Clone, Copy, Debug)]
pub struct Placing {
    pub number: u32,
    pub watched: u8,
    pub traded: u8,
    pub quantity: u32,
    pub total: u32,
    pub choice: u8,
    pub own_price: u32,
    pub until: Option<u16>,
    pub range: Option<RawRange>,
    pub kind: KindName,
    pub flags: Flags,
    pub numbers: [u32; 3],
    pub steps: [RawStep; 3],
}

#[derive(Clone, Copy, Debug)]
pub struct RawRange {
    pub switch: bool,
    pub low: u32,
    pub high: u32,
}

#[derive(Clone, Copy, Debug)]
pub enum RawStep {
    Percentage(u32),
    Difference(u32),
}

#[derive(Clone, Copy, PartialEq, Eq, Debug)]
pub enum KindName {
    Level,
    Linked,
    MoveBy,
    MoveToTheLimit,
    Average,
    ReboundBuy,
    FallBackSell,
    StopOrProfit,
    Batch,
    MarketGrid,
    FillGrid,
}

impl KindName {
    pub const ALL: [Self; 11] = [
        Self::Level,
        Self::Linked,
        Self::MoveBy,
        Self::MoveToTheLimit,
        Self::Average,
        Self::ReboundBuy,
        Self::FallBackSell,
        Self::StopOrProfit,
        Self::Batch,
        Self::MarketGrid,
        Self::FillGrid,
    ];

    /// The number that stands for it in a record.
    pub fn code(self) -> u8 {
        self as u8 + 1
    }

    fn new(code: u8) -> Result<Self, Fault> {
        let place = usize::from(code).checked_sub(1).ok_or(Fault::NoSuchOperand)?;
        Self::ALL.get(place).copied().ok_or(Fault::NoSuchOperand)
    }

    pub fn book(self) -> BookName {
        match self {
            Self::Batch | Self::MarketGrid | Self::FillGrid => BookName::Series,
            _ => BookName::Single,
        }
    }
}

#[derive(Clone, Copy, PartialEq, Eq, Debug)]
pub struct Flags(u8);

impl Flags {
    pub const RISING: u8 = 1;
    pub const SELL: u8 = 2;
    pub const FLOOR: u8 = 4;
    pub const STAY: u8 = 8;
    pub const TRAIL: u8 = 16;

    fn new(flags: u8) -> Result<Self, Fault> {
        let all = Self::RISING | Self::SELL | Self::FLOOR | Self::STAY | Self::TRAIL;
        if flags & !all == 0 { Ok(Self(flags)) } else { Err(Fault::NoSuchOperand) }
    }

    pub fn has(self, flag: u8) -> bool {
        self.0 & flag != 0
    }
}

/// The lengths of the operands.
pub const QUOTE: usize = 50;
const DAY: usize = 15;
const PLACING: usize = 60;
const NAMED_ORDER: usize = 5;
const SETTLEMENT: usize = 9;

/// The length of the first record, its letter included, if it is there whole.
pub fn length(bytes: &[u8]) -> Result<usize, Fault> {
    let (&letter, operands) = bytes.split_first().ok_or(Fault::CutShort)?;
    let count_at = |place: usize| -> Result<usize, Fault> {
        let bytes = operands[place.min(operands.len())..].first_chunk().ok_or(Fault::CutShort)?;
        Ok(usize::from(u16::from_be_bytes(*bytes)))
    };
    let wanted = match letter {
        b'L' => 3 + 4 * count_at(1)?,
        b'D' => DAY,
        b'S' => 4,
        b'P' => PLACING,
        b'Q' => QUOTE,
        b'B' => 2 + QUOTE * count_at(0)?,
        b'C' | b'K' | b'A' => NAMED_ORDER,
        b'F' => SETTLEMENT,
        _ => return Err(Fault::UnknownLetter),
    };
    if operands.len() < wanted { Err(Fault::CutShort) } else { Ok(1 + wanted) }
}

/// Reads the first record, and answers its length too.
pub fn read(bytes: &[u8]) -> Result<(Call<'_>, usize), Fault> {
    let length = length(bytes)?;
    let mut reader = Reader(&bytes[1..length]);
    let call = match bytes[0] {
        b'L' => {
            let share = reader.u8();
            reader.u16();
            Call::List { share, closes: Numbers(reader.0.as_chunks().0) }
        }
        b'D' => Call::Day { share: reader.u8(), day: reader.day() },
        b'S' => Call::Places(reader.u32()),
        b'P' => Call::Place(reader.placing()?),
        b'Q' => Call::Quote(reader.quote()),
        b'B' => {
            reader.u16();
            Call::Burst(Quotes(reader.0.as_chunks().0))
        }
        b'C' => Call::Cancel { book: reader.book()?, number: reader.u32() },
        b'K' => Call::Claim { book: reader.book()?, number: reader.u32() },
        b'F' => Call::Settle { book: reader.book()?, ticket: reader.u32(), price: reader.u32() },
        b'A' => Call::State { book: reader.book()?, number: reader.u32() },
        _ => return Err(Fault::UnknownLetter),
    };
    Ok((call, length))
}

/// Reads operands that are known to be there.
pub struct Reader<'a>(pub &'a [u8]);

impl Reader<'_> {
    fn take<const N: usize>(&mut self) -> [u8; N] {
        let (taken, rest) = self.0.split_first_chunk().expect("the record is whole");
        self.0 = rest;
        *taken
    }

    pub fn u8(&mut self) -> u8 {
        u8::from_be_bytes(self.take())
    }

    pub fn u16(&mut self) -> u16 {
        u16::from_be_bytes(self.take())
    }

    pub fn u32(&mut self) -> u32 {
        u32::from_be_bytes(self.take())
    }

    fn day(&mut self) -> RawDay {
        RawDay { number: self.u16(), previous_close: self.u32(), upper: self.u32(), lower: self.u32() }
    }

    fn quote(&mut self) -> RawQuote {
        RawQuote {
            share: self.u8(),
            phase: self.u8(),
            moment: self.u32(),
            last: self.u32(),
            bids: std::array::from_fn(|_| self.u32()),
            asks: std::array::from_fn(|_| self.u32()),
        }
    }

    fn book(&mut self) -> Result<BookName, Fault> {
        match self.u8() {
            1 => Ok(BookName::Single),
            2 => Ok(BookName::Series),
            _ => Err(Fault::NoSuchOperand),
        }
    }

    fn until(&mut self) -> Result<Option<u16>, Fault> {
        match (self.u8(), self.u16()) {
            (0, _) => Ok(None),
            (1, day) => Ok(Some(day)),
            _ => Err(Fault::NoSuchOperand),
        }
    }

    fn range(&mut self) -> Result<Option<RawRange>, Fault> {
        let form = self.u8();
        let (low, high) = (self.u32(), self.u32());
        match form {
            0 => Ok(None),
            1 | 2 => Ok(Some(RawRange { switch: form == 2, low, high })),
            _ => Err(Fault::NoSuchOperand),
        }
    }

    fn step(&mut self) -> Result<RawStep, Fault> {
        match (self.u8(), self.u32()) {
            (0, value) => Ok(RawStep::Percentage(value)),
            (1, value) => Ok(RawStep::Difference(value)),
            _ => Err(Fault::NoSuchOperand),
        }
    }

    fn placing(&mut self) -> Result<Placing, Fault> {
        Ok(Placing {
            number: self.u32(),
            watched: self.u8(),
            traded: self.u8(),
            quantity: self.u32(),
            total: self.u32(),
            choice: self.u8(),
            own_price: self.u32(),
            until: self.until()?,
            range: self.range()?,
            kind: KindName::new(self.u8())?,
            flags: Flags::new(self.u8())?,
            numbers: std::array::from_fn(|_| self.u32()),
            steps: [self.step()?, self.step()?, self.step()?],
        })
    }
}
