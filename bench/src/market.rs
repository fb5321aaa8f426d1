//! The table of shares: their closes, the day, and the latest quote.

use crate::condition::{Day, Sums};
use crate::values::{Price, Refusal};

pub const SHARES: usize = 64;
const CLOSES: usize = 59;
const LAST_MOMENT: u32 = 86_399;

/// A quote as it comes in, nothing of it checked.
#[derive(Clone, Copy, PartialEq, Eq, Debug)]
pub struct RawQuote {
    pub share: u8,
    pub phase: u8,
    pub moment: u32,
    pub last: u32,
    pub bids: [u32; 5],
    pub asks: [u32; 5],
}

/// A day as it comes in, nothing of it checked.
#[derive(Clone, Copy, Debug)]
pub struct RawDay {
    pub number: u16,
    pub previous_close: u32,
    pub upper: u32,
    pub lower: u32,
}

/// A quote that was checked against its share.
#[derive(Clone, Copy, Debug)]
pub struct Quote {
    pub share: usize,
    /// In continuous trading, the only phase in which orders are told of a quote.
    pub continuous: bool,
    pub moment: u32,
    pub prices: Prices,
}

#[derive(Clone, Copy, Debug)]
pub struct Prices {
    pub last: Price,
    pub bids: [Option<Price>; 5],
    pub asks: [Option<Price>; 5],
}

#[derive(Default)]
struct Share {
    /// The newest closes, the oldest of them first.
    closes: Vec<Price>,
    day: Option<Day>,
    /// The moment and prices of the day's latest quote.
    latest: Option<(u32, Prices)>,
}

pub struct Market {
    shares: [Option<Share>; SHARES],
}

impl Market {
    pub fn new() -> Self {
        Self { shares: [const { None }; SHARES] }
    }

    /// The place of a share that is listed.
    pub fn listed(&self, share: u8) -> Result<usize, Refusal> {
        let place = usize::from(share);
        match self.shares.get(place) {
            None => Err(Refusal::NoShare),
            Some(None) => Err(Refusal::NotListed),
            Some(Some(_)) => Ok(place),
        }
    }

    pub fn list(&mut self, share: u8, closes: impl ExactSizeIterator<Item = u32>) -> Result<(), Refusal> {
        let row = self.shares.get_mut(usize::from(share)).ok_or(Refusal::NoShare)?;
        if row.is_some() {
            return Err(Refusal::ListedAlready);
        }
        if closes.len() > CLOSES {
            return Err(Refusal::TooManyCloses);
        }
        let closes = closes.map(Price::new).collect::<Result<_, _>>()?;
        *row = Some(Share { closes, ..Share::default() });
        Ok(())
    }

    /// Begins a day and answers the place of its share.
    pub fn open_day(&mut self, share: u8, raw: RawDay) -> Result<usize, Refusal> {
        let place = self.listed(share)?;
        let Some(row) = &mut self.shares[place] else { return Err(Refusal::NotListed) };
        if row.day.is_some_and(|day| raw.number <= day.number) {
            return Err(Refusal::StaleDay);
        }
        let previous_close = Price::new(raw.previous_close)?;
        let upper = Price::new(raw.upper)?;
        let lower = Price::new(raw.lower)?;
        if !(lower..=upper).contains(&previous_close) {
            return Err(Refusal::CloseOutsideLimits);
        }
        if row.closes.len() == CLOSES {
            row.closes.remove(0);
        }
        row.closes.push(previous_close);
        let sums = Sums::of(&row.closes);
        row.day = Some(Day { number: raw.number, previous_close, upper, lower, sums });
        row.latest = None;
        Ok(place)
    }

    pub fn day(&self, share: usize) -> Result<&Day, Refusal> {
        self.share(share).and_then(|s| s.day.as_ref()).ok_or(Refusal::NoDay)
    }

    /// The prices of the day's latest quote.
    pub fn prices(&self, share: usize) -> Option<&Prices> {
        self.share(share)?.latest.as_ref().map(|(_, prices)| prices)
    }

    pub fn check_quote(&self, raw: &RawQuote) -> Result<Quote, Refusal> {
        let share = self.listed(raw.share)?;
        self.day(share)?;
        if raw.phase > 2 {
            return Err(Refusal::BadPhase);
        }
        let earliest = self.share(share).and_then(|s| s.latest.as_ref()).map_or(0, |(moment, _)| *moment);
        if !(earliest..=LAST_MOMENT).contains(&raw.moment) {
            return Err(Refusal::BadMoment);
        }
        let prices = Prices { last: Price::new(raw.last)?, bids: levels(&raw.bids)?, asks: levels(&raw.asks)? };
        Ok(Quote { share, continuous: raw.phase == 1, moment: raw.moment, prices })
    }

    /// Makes a checked quote its share's latest.
    pub fn keep_quote(&mut self, quote: &Quote) {
        if let Some(row) = &mut self.shares[quote.share] {
            row.latest = Some((quote.moment, quote.prices));
        }
    }

    fn share(&self, place: usize) -> Option<&Share> {
        self.shares[place].as_ref()
    }
}

impl Default for Market {
    fn default() -> Self {
        Self::new()
    }
}

fn levels(raw: &[u32; 5]) -> Result<[Option<Price>; 5], Refusal> {
    let mut levels = [None; 5];
    for (level, &units) in levels.iter_mut().zip(raw) {
        *level = Price::new_or_missing(units)?;
    }
    Ok(levels)
}
