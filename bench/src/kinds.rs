//! The kinds of orders.

use crate::condition::{Answer, Condition, Day, Fire, Range, Side, Standing, Then, Tick};
use crate::values::{AveragingDays, Direction, Hold, Percentage, Price, PriceRange, Refusal, Step};

fn fires(side: Side, trigger: Option<Price>, then: Then) -> Answer {
    trigger.map_or(Answer::Wait, |trigger| Answer::Fires(Fire { side, trigger, then }))
}

/// Fires at a fixed price or beyond it.
#[derive(Clone, Debug)]
pub struct Level {
    pub direction: Direction,
    pub level: Price,
    pub side: Side,
}

impl Level {
    fn tick(&self, tick: Tick) -> Answer {
        let trigger = self.direction.passes(self.level, tick.price).then_some(self.level);
        fires(self.side, trigger, Then::Over)
    }
}

#[derive(Clone, Copy, Debug)]
pub enum Move {
    By(Percentage),
    ToTheLimit,
}

/// Fires at a move from the previous close.
#[derive(Clone, Debug)]
pub struct DayMove {
    direction: Direction,
    extent: Move,
    side: Side,
    /// Where the day's move ends; there is none before the first day.
    target: Option<u32>,
}

impl DayMove {
    pub fn new(direction: Direction, extent: Move, side: Side) -> Self {
        Self { direction, extent, side, target: None }
    }

    fn tick(&self, tick: Tick) -> Answer {
        let trigger = self.target.and_then(|target| self.direction.reached(target, tick.price));
        fires(self.side, trigger, Then::Over)
    }

    fn day(&mut self, day: &Day) {
        self.target = Some(match (self.extent, self.direction) {
            (Move::By(percentage), direction) => direction.target(day.previous_close, Step::Percentage(percentage)),
            (Move::ToTheLimit, Direction::Rising) => day.upper.get(),
            (Move::ToTheLimit, Direction::Falling) => day.lower.get(),
        });
    }
}

/// Fires when the price has kept at its average or beyond it for so long.
#[derive(Clone, Debug)]
pub struct Average {
    direction: Direction,
    days: AveragingDays,
    hold: Hold,
    side: Side,
    /// The sum of the closes before today, if there are enough.
    sum: Option<u64>,
    /// The moment from which on every tick of the day was a yes.
    since: Option<u32>,
}

impl Average {
    pub fn new(direction: Direction, days: AveragingDays, hold: Hold, side: Side) -> Self {
        Self { direction, days, hold, side, sum: None, since: None }
    }

    fn tick(&mut self, tick: Tick) -> Answer {
        let Some(trigger) = self.judge(tick.price) else {
            self.since = None;
            return Answer::Wait;
        };
        let since = *self.since.get_or_insert(tick.moment);
        let held = tick.moment.saturating_sub(since) >= self.hold.seconds();
        fires(self.side, held.then_some(trigger), Then::Over)
    }

    /// The average with today's price, if the price lies at it or beyond it.
    fn judge(&self, price: Price) -> Option<Price> {
        let sum = self.sum?;
        let days = u64::from(self.days.days());
        let price = u64::from(price.get());
        if !self.direction.passes(sum, (days - 1) * price) {
            return None;
        }
        u32::try_from((sum + price) / days).ok().and_then(|average| Price::new(average).ok())
    }

    fn day(&mut self, day: &Day) {
        self.sum = day.sums.before(self.days);
        self.since = None;
    }
}

/// A watch that begins at a mark, follows the price away from it, and fires when the price turns back: a rebound turns
/// back rising, a fall-back falling.
#[derive(Clone, Debug)]
pub struct Trail {
    back: Direction,
    side: Side,
    mark: Price,
    step: Step,
    floor: bool,
    stay: bool,
    /// The farthest price since the watch began.
    farthest: Option<Price>,
}

impl Trail {
    pub fn rebound_buy(mark: Price, step: Step, floor: bool, stay: bool) -> Self {
        Self { back: Direction::Rising, side: Side::Buy, mark, step, floor, stay, farthest: None }
    }

    pub fn fall_back_sell(mark: Price, step: Step, floor: bool, stay: bool) -> Self {
        Self { back: Direction::Falling, side: Side::Sell, mark, step, floor, stay, farthest: None }
    }

    fn tick(&mut self, tick: Tick) -> Answer {
        let price = tick.price;
        let away = self.back.opposite();
        let Some(before) = self.farthest else {
            if away.passes(self.mark, price) {
                self.farthest = Some(price);
            }
            return Answer::Wait;
        };
        let farthest = if away.passes(before, price) { price } else { before };
        self.farthest = Some(farthest);
        let trigger = self.turned(farthest, price).or_else(|| self.back_at_the_mark(before, price));
        fires(self.side, trigger, Then::Over)
    }

    fn turned(&self, farthest: Price, price: Price) -> Option<Price> {
        if self.stay && !self.back.opposite().passes(self.mark, price) {
            return None;
        }
        self.back.reached(self.back.target(farthest, self.step), price)
    }

    /// With the option floor the mark fires too, once an earlier price lay strictly past it.
    fn back_at_the_mark(&self, before: Price, price: Price) -> Option<Price> {
        let was_past = before != self.mark;
        (self.floor && was_past && self.back.passes(self.mark, price)).then_some(self.mark)
    }
}

#[derive(Clone, Debug)]
enum Profit {
    Level(Level),
    Trail(Trail),
}

/// Sells below its base to stop a loss, or above it to take a profit.
#[derive(Clone, Debug)]
pub struct StopOrProfit {
    stop: Level,
    profit: Profit,
}

impl StopOrProfit {
    pub fn new(base: Price, stop: Step, profit: Step, trail: Option<Step>) -> Result<Self, Refusal> {
        let stop = sell_at(Direction::Falling, base, stop)?;
        let profit = sell_at(Direction::Rising, base, profit)?;
        let profit = match trail {
            None => Profit::Level(profit),
            Some(step) => Profit::Trail(Trail::fall_back_sell(profit.level, step, false, true)),
        };
        Ok(Self { stop, profit })
    }

    fn tick(&mut self, tick: Tick) -> Answer {
        let stop = self.stop.tick(tick);
        let profit = match &mut self.profit {
            Profit::Level(level) => level.tick(tick),
            Profit::Trail(trail) => trail.tick(tick),
        };
        if stop == Answer::Wait { profit } else { stop }
    }
}

fn sell_at(direction: Direction, base: Price, step: Step) -> Result<Level, Refusal> {
    let level = Price::new(direction.target(base, step))?;
    Ok(Level { direction, level, side: Side::Sell })
}

/// Buys or sells step by step, each from the market price of the last.
#[derive(Clone, Debug)]
pub struct Batch {
    pub side: Side,
    pub base: Price,
    pub step: Step,
}

impl Batch {
    fn tick(&mut self, tick: Tick) -> Answer {
        let direction = match self.side {
            Side::Buy => Direction::Falling,
            Side::Sell => Direction::Rising,
        };
        let trigger = direction.reached(direction.target(self.base, self.step), tick.price);
        if trigger.is_some() {
            self.base = tick.price;
        }
        fires(self.side, trigger, Then::GoesOn)
    }
}

#[derive(Clone, Copy, PartialEq, Eq, Debug)]
enum Mode {
    /// The base follows the market; only targets inside the range fire.
    Market(PriceRange),
    /// The base follows the fills.
    Fill,
    FillAwaited,
}

/// Buys a step below its base and sells a step above it.
#[derive(Clone, Debug)]
pub struct Grid {
    base: Price,
    down: Step,
    up: Step,
    mode: Mode,
}

impl Grid {
    /// A grid under the range from its low to its high.
    pub fn market(range: PriceRange, base: Price, down: Step, up: Step) -> Range<Self> {
        Range::new(range, true, Self { base, down, up, mode: Mode::Market(range) })
    }

    pub fn fill(range: PriceRange, base: Price, down: Step, up: Step) -> Range<Self> {
        Range::new(range, false, Self { base, down, up, mode: Mode::Fill })
    }

    fn fire(&self, price: Price) -> Option<(Side, Price)> {
        let reach = |side, direction: Direction, step| {
            direction.reached(direction.target(self.base, step), price).map(|trigger| (side, trigger))
        };
        reach(Side::Buy, Direction::Falling, self.down).or_else(|| reach(Side::Sell, Direction::Rising, self.up))
    }
}

impl Condition for Grid {
    fn tick(&mut self, tick: Tick) -> Answer {
        let fire = self.fire(tick.price);
        match (self.mode, fire) {
            (Mode::Market(range), Some((side, trigger))) if range.contains(trigger.get()) => {
                self.base = tick.price;
                Answer::Fires(Fire { side, trigger, then: Then::GoesOn })
            }
            (Mode::Fill, Some((side, trigger))) => {
                self.mode = Mode::FillAwaited;
                Answer::Fires(Fire { side, trigger, then: Then::AwaitsSettlement })
            }
            _ => Answer::Wait,
        }
    }

    fn day(&mut self, _: &Day) -> Standing {
        Standing::Stands
    }

    fn settle(&mut self, price: Price) {
        if self.mode == Mode::FillAwaited {
            self.base = price;
            self.mode = Mode::Fill;
        }
    }
}

/// The condition of an order, without the layers above it.
#[derive(Clone, Debug)]
pub enum Kind {
    Level(Level),
    Linked(Level),
    DayMove(DayMove),
    Average(Average),
    Trail(Trail),
    StopOrProfit(StopOrProfit),
    Batch(Batch),
    Grid(Range<Grid>),
}

impl Kind {
    /// Whether the house's limit applies to the prices of its slips.
    pub fn is_limited(&self) -> bool {
        match self {
            Self::Level(_) | Self::DayMove(_) | Self::Average(_) | Self::Trail(_) | Self::StopOrProfit(_) => true,
            Self::Linked(_) | Self::Batch(_) | Self::Grid(_) => false,
        }
    }
}

impl Condition for Kind {
    fn tick(&mut self, tick: Tick) -> Answer {
        match self {
            Self::Level(level) | Self::Linked(level) => level.tick(tick),
            Self::DayMove(day_move) => day_move.tick(tick),
            Self::Average(average) => average.tick(tick),
            Self::Trail(trail) => trail.tick(tick),
            Self::StopOrProfit(both) => both.tick(tick),
            Self::Batch(batch) => batch.tick(tick),
            Self::Grid(grid) => grid.tick(tick),
        }
    }

    fn day(&mut self, day: &Day) -> Standing {
        match self {
            Self::DayMove(day_move) => day_move.day(day),
            Self::Average(average) => average.day(day),
            Self::Level(_) | Self::Linked(_) | Self::Trail(_) | Self::StopOrProfit(_) => {}
            Self::Batch(_) | Self::Grid(_) => {}
        }
        Standing::Stands
    }

    fn settle(&mut self, price: Price) {
        if let Self::Grid(grid) = self {
            grid.settle(price);
        }
    }
}
