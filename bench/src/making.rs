//! Makes an order of the operands of a placing.

use crate::book::RawOrder;
use crate::condition::{Range, Side, Until};
use crate::kinds::{Average, Batch, DayMove, Grid, Kind, Level, Move, StopOrProfit, Trail};
use crate::records::{Flags, KindName, Placing, RawStep};
use crate::values::{AveragingDays, Difference, Direction, Hold, Percentage, Price, PriceRange, Refusal, Step};

/// The first value that cannot be made is the refusal. The ends of the range come first, and that they are in order is
/// looked at last, since the range stands above the finished kind.
pub fn order(placing: &Placing) -> Result<RawOrder, Refusal> {
    let range = match placing.range {
        None => None,
        Some(raw) => Some((Price::new(raw.low)?, Price::new(raw.high)?, raw.switch)),
    };
    let kind = kind(placing)?;
    let limited = kind.is_limited();
    let ranged = match range {
        None => Range::unbounded(kind),
        Some((low, high, switch)) => Range::new(PriceRange::new(low, high)?, switch, kind),
    };
    Ok(RawOrder {
        number: placing.number,
        watched: placing.watched,
        traded: placing.traded,
        quantity: placing.quantity,
        total: placing.total,
        choice: placing.choice,
        own_price: placing.own_price,
        limited,
        condition: Until::new(placing.until, ranged),
    })
}

fn kind(placing: &Placing) -> Result<Kind, Refusal> {
    let flags = placing.flags;
    let direction = if flags.has(Flags::RISING) { Direction::Rising } else { Direction::Falling };
    let side = if flags.has(Flags::SELL) { Side::Sell } else { Side::Buy };
    let (floor, stay) = (flags.has(Flags::FLOOR), flags.has(Flags::STAY));
    let [a, b, _] = placing.numbers;
    let [x, y, z] = placing.steps;
    Ok(match placing.kind {
        KindName::Level => Kind::Level(Level { direction, level: Price::new(a)?, side }),
        KindName::Linked => Kind::Linked(Level { direction, level: Price::new(a)?, side }),
        KindName::MoveBy => Kind::DayMove(DayMove::new(direction, Move::By(Percentage::new(a)?), side)),
        KindName::MoveToTheLimit => Kind::DayMove(DayMove::new(direction, Move::ToTheLimit, side)),
        KindName::Average => Kind::Average(Average::new(direction, AveragingDays::new(a)?, Hold::new(b)?, side)),
        KindName::ReboundBuy => Kind::Trail(Trail::rebound_buy(Price::new(a)?, step(x)?, floor, stay)),
        KindName::FallBackSell => Kind::Trail(Trail::fall_back_sell(Price::new(a)?, step(x)?, floor, stay)),
        KindName::StopOrProfit => {
            let (base, stop, profit) = (Price::new(a)?, step(x)?, step(y)?);
            let trail = if flags.has(Flags::TRAIL) { Some(step(z)?) } else { None };
            Kind::StopOrProfit(StopOrProfit::new(base, stop, profit, trail)?)
        }
        KindName::Batch => Kind::Batch(Batch { side, base: Price::new(a)?, step: step(x)? }),
        KindName::MarketGrid => grid(placing, Grid::market)?,
        KindName::FillGrid => grid(placing, Grid::fill)?,
    })
}

type MakeGrid = fn(PriceRange, Price, Step, Step) -> Range<Grid>;

fn grid(placing: &Placing, make: MakeGrid) -> Result<Kind, Refusal> {
    let [low, high, base] = placing.numbers;
    let (low, high, base) = (Price::new(low)?, Price::new(high)?, Price::new(base)?);
    let (down, up) = (step(placing.steps[0])?, step(placing.steps[1])?);
    Ok(Kind::Grid(make(PriceRange::new(low, high)?, base, down, up)))
}

fn step(raw: RawStep) -> Result<Step, Refusal> {
    match raw {
        RawStep::Percentage(value) => Percentage::new(value).map(Step::Percentage),
        RawStep::Difference(value) => Difference::new(value).map(Step::Difference),
    }
}
