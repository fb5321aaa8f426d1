//! What an order waits for: the events that it is told, its answers, and the layers that stand above any condition.

use crate::values::{AveragingDays, Price, PriceRange};

/// The last price of the watched share at a moment, in seconds of the day.
#[derive(Clone, Copy, Debug)]
pub struct Tick {
    pub moment: u32,
    pub price: Price,
}

#[derive(Clone, Copy, Debug)]
pub struct Day {
    pub number: u16,
    pub previous_close: Price,
    pub upper: Price,
    pub lower: Price,
    pub sums: Sums,
}

/// Sums of the newest closes of a share, one for each length of an average; 0 where there are fewer closes.
#[derive(Clone, Copy, Default, Debug)]
pub struct Sums([u64; 5]);

impl Sums {
    /// The sums over closes that stand with the oldest first.
    pub fn of(closes: &[Price]) -> Self {
        Self(AveragingDays::ALL.map(|days| {
            let wanted = days.days() as usize - 1;
            match closes.len().checked_sub(wanted) {
                Some(older) => closes[older..].iter().map(|c| u64::from(c.get())).sum(),
                None => 0,
            }
        }))
    }

    /// The sum that an average over so many days builds on, the day itself left out.
    pub fn before(&self, days: AveragingDays) -> Option<u64> {
        let sum = self.0[days as usize];
        (sum != 0).then_some(sum)
    }
}

#[derive(Clone, Copy, PartialEq, Eq, Debug)]
#[repr(u8)]
pub enum Side {
    Buy = 1,
    Sell = 2,
}

/// What follows a fire.
#[derive(Clone, Copy, PartialEq, Eq, Debug)]
pub enum Then {
    GoesOn,
    AwaitsSettlement,
    Over,
}

#[derive(Clone, Copy, PartialEq, Eq, Debug)]
pub struct Fire {
    pub side: Side,
    pub trigger: Price,
    pub then: Then,
}

/// The answer to a tick.
#[derive(Clone, Copy, PartialEq, Eq, Debug)]
pub enum Answer {
    Wait,
    Fires(Fire),
    Lapses,
}

/// The answer to a day.
#[derive(Clone, Copy, PartialEq, Eq, Debug)]
pub enum Standing {
    Stands,
    Lapses,
}

/// Told events one after another; after a fire that is over, or a lapse, it is told no more.
pub trait Condition {
    fn tick(&mut self, tick: Tick) -> Answer;
    fn day(&mut self, day: &Day) -> Standing;
    fn settle(&mut self, price: Price);
}

/// Lapses on the first day after its last.
#[derive(Clone, Debug)]
pub struct Until<C> {
    last_day: u16,
    below: C,
}

impl<C> Until<C> {
    pub fn new(last_day: Option<u16>, below: C) -> Self {
        Self { last_day: last_day.unwrap_or(u16::MAX), below }
    }
}

impl<C: Condition> Condition for Until<C> {
    fn tick(&mut self, tick: Tick) -> Answer {
        self.below.tick(tick)
    }

    fn day(&mut self, day: &Day) -> Standing {
        let standing = self.below.day(day);
        if day.number > self.last_day { Standing::Lapses } else { standing }
    }

    fn settle(&mut self, price: Price) {
        self.below.settle(price);
    }
}

/// Lapses at a price outside its bounds; with the switch on a fire there still passes, as the last one.
#[derive(Clone, Debug)]
pub struct Range<C> {
    bounds: Option<PriceRange>,
    last_fire_passes: bool,
    below: C,
}

impl<C> Range<C> {
    pub fn new(bounds: PriceRange, last_fire_passes: bool, below: C) -> Self {
        Self { bounds: Some(bounds), last_fire_passes, below }
    }

    pub fn unbounded(below: C) -> Self {
        Self { bounds: None, last_fire_passes: false, below }
    }
}

impl<C: Condition> Condition for Range<C> {
    fn tick(&mut self, tick: Tick) -> Answer {
        let answer = self.below.tick(tick);
        if self.bounds.is_none_or(|bounds| bounds.contains(tick.price.get())) {
            return answer;
        }
        match answer {
            Answer::Fires(fire) if self.last_fire_passes => Answer::Fires(Fire { then: Then::Over, ..fire }),
            _ => Answer::Lapses,
        }
    }

    fn day(&mut self, day: &Day) -> Standing {
        self.below.day(day)
    }

    fn settle(&mut self, price: Price) {
        self.below.settle(price);
    }
}
