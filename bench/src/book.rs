//! The book of orders: who is told what, and what becomes of a fire.

use crate::condition::{Answer, Condition, Day, Fire, Range, Side, Standing, Then, Tick, Until};
use crate::kinds::Kind;
use crate::market::{Market, Prices, RawDay, RawQuote};
use crate::values::{Limit, Price, Refusal};

const GREATEST_ROWS: u32 = 4_096;
const GREATEST_QUANTITY: u32 = 1_000_000;
const GREATEST_TOTAL: u32 = 1_000_000_000;

pub type Pile = Until<Range<Kind>>;

/// An order as it comes in, its numbers not checked.
pub struct RawOrder {
    pub number: u32,
    pub watched: u8,
    pub traded: u8,
    pub quantity: u32,
    pub total: u32,
    pub choice: u8,
    pub own_price: u32,
    pub limited: bool,
    pub condition: Pile,
}

/// Which price goes on a slip.
#[derive(Clone, Copy, PartialEq, Eq, Debug)]
enum Choice {
    Own(Price),
    Last,
    Bid(u8),
    Ask(u8),
}

impl Choice {
    fn new(choice: u8, own_price: u32) -> Result<Self, Refusal> {
        if choice != 0 && own_price != 0 {
            return Err(Refusal::BadChoice);
        }
        match choice {
            0 => Price::new(own_price).map(Self::Own),
            1 | 12 => Ok(Self::Last),
            2..=6 => Ok(Self::Bid(choice - 2)),
            7..=11 => Ok(Self::Ask(choice - 7)),
            _ => Err(Refusal::BadChoice),
        }
    }

    fn among(self, prices: &Prices) -> Option<Price> {
        match self {
            Self::Own(price) => Some(price),
            Self::Last => Some(prices.last),
            Self::Bid(level) => prices.bids[usize::from(level)],
            Self::Ask(level) => prices.asks[usize::from(level)],
        }
    }
}

/// A waiting or claimed order keeps the market price of the slip that is out.
#[derive(Clone, Copy, PartialEq, Eq, Debug)]
enum State {
    Watching,
    Waiting(Price),
    Claimed(Price),
    EndedUnderClaim,
}

#[derive(Clone, Copy, PartialEq, Eq, Debug)]
#[repr(u8)]
pub enum Outcome {
    Sent = 0,
    Withheld = 1,
    Unpriced = 2,
    Exceeded = 3,
}

#[derive(Clone, Copy, PartialEq, Eq, Debug)]
pub struct Slip {
    pub number: u32,
    pub moment: u32,
    pub side: Side,
    pub trigger: Price,
    pub market: Price,
    pub price: Option<Price>,
    pub quantity: u32,
    pub outcome: Outcome,
}

/// The right to settle an order. A void one was given where there was nothing to settle.
#[derive(Clone, Copy, PartialEq, Eq, Debug)]
pub struct Ticket {
    book: u8,
    number: u32,
    void: bool,
}

impl Ticket {
    /// The number of the book that gave it.
    pub fn book(&self) -> u8 {
        self.book
    }

    pub fn is_void(&self) -> bool {
        self.void
    }
}

struct Order {
    number: u32,
    watched: usize,
    traded: usize,
    quantity: u32,
    total: u32,
    /// The quantities of its slips that were sent; counted only where a total is set, and then never above it.
    sent: u32,
    choice: Choice,
    limited: bool,
    state: State,
    condition: Pile,
}

impl Order {
    fn is_watching(&self, share: usize) -> bool {
        self.watched == share && self.state == State::Watching
    }

    /// Tells a watching order a tick and answers whether it is still there afterwards.
    fn tick(&mut self, tick: Tick, limit: Limit, market: &Market, slips: &mut Vec<Slip>) -> bool {
        match self.condition.tick(tick) {
            Answer::Wait => true,
            Answer::Lapses => false,
            Answer::Fires(fire) => {
                let slip = self.slip(fire, tick, limit, market);
                slips.push(slip);
                self.goes_on(fire.then, &slip)
            }
        }
    }

    fn slip(&self, fire: Fire, tick: Tick, limit: Limit, market: &Market) -> Slip {
        let (outcome, price) = self.outcome(fire, limit, market);
        Slip {
            number: self.number,
            moment: tick.moment,
            side: fire.side,
            trigger: fire.trigger,
            market: tick.price,
            price,
            quantity: self.quantity,
            outcome,
        }
    }

    fn outcome(&self, fire: Fire, limit: Limit, market: &Market) -> (Outcome, Option<Price>) {
        if self.total != 0 && self.sent + self.quantity > self.total {
            return (Outcome::Exceeded, None);
        }
        let Some(price) = market.prices(self.traded).and_then(|prices| self.choice.among(prices)) else {
            return (Outcome::Unpriced, None);
        };
        let outcome = if self.is_withheld(fire, price, limit) { Outcome::Withheld } else { Outcome::Sent };
        (outcome, Some(price))
    }

    fn is_withheld(&self, fire: Fire, price: Price, limit: Limit) -> bool {
        if !self.limited || matches!(self.choice, Choice::Own(_)) {
            return false;
        }
        let (price, trigger) = (price.get(), fire.trigger.get());
        let worse = match fire.side {
            Side::Buy => price.saturating_sub(trigger),
            Side::Sell => trigger.saturating_sub(price),
        };
        limit.exceeded_by(worse, fire.trigger)
    }

    /// Notes a slip and answers whether the order is still there afterwards.
    fn goes_on(&mut self, then: Then, slip: &Slip) -> bool {
        if then == Then::Over || slip.outcome == Outcome::Exceeded {
            return false;
        }
        if slip.outcome == Outcome::Sent && self.total != 0 {
            self.sent += slip.quantity;
        }
        if then == Then::AwaitsSettlement {
            if slip.outcome == Outcome::Sent {
                self.state = State::Waiting(slip.market);
            } else {
                self.condition.settle(slip.market);
            }
        }
        true
    }

    /// Tells the order a day of its watched share and answers whether it is still there afterwards.
    fn day(&mut self, day: &Day) -> bool {
        if self.state == State::EndedUnderClaim || self.condition.day(day) == Standing::Stands {
            return true;
        }
        let claimed = matches!(self.state, State::Claimed(_));
        if claimed {
            self.state = State::EndedUnderClaim;
        }
        claimed
    }
}

pub struct Book {
    number: u8,
    limit: Limit,
    rows: usize,
    /// In order of placing.
    orders: Vec<Order>,
}

impl Book {
    pub fn new(number: u8, limit: Limit, rows: u32) -> Self {
        Self { number, limit, rows: rows.min(GREATEST_ROWS) as usize, orders: Vec::new() }
    }

    pub fn open_day(&mut self, market: &mut Market, share: u8, day: RawDay) -> Result<(), Refusal> {
        let share = market.open_day(share, day)?;
        let day = market.day(share)?;
        self.orders.retain_mut(|order| order.watched != share || order.day(day));
        Ok(())
    }

    pub fn place(&mut self, market: &Market, raw: RawOrder) -> Result<(), Refusal> {
        if raw.number == 0 {
            return Err(Refusal::NumberZero);
        }
        if self.find(raw.number).is_some() {
            return Err(Refusal::NumberTaken);
        }
        if self.orders.len() >= self.rows {
            return Err(Refusal::NoRowFree);
        }
        let watched = market.listed(raw.watched)?;
        let traded = market.listed(raw.traded)?;
        let day = market.day(watched)?;
        if !(1..=GREATEST_QUANTITY).contains(&raw.quantity) {
            return Err(Refusal::BadQuantity);
        }
        if raw.total != 0 && !(raw.quantity..=GREATEST_TOTAL).contains(&raw.total) {
            return Err(Refusal::BadTotal);
        }
        let choice = Choice::new(raw.choice, raw.own_price)?;
        let mut condition = raw.condition;
        if condition.day(day) == Standing::Lapses {
            return Err(Refusal::LapsesAtOnce);
        }
        self.orders.push(Order {
            number: raw.number,
            watched,
            traded,
            quantity: raw.quantity,
            total: raw.total,
            sent: 0,
            choice,
            limited: raw.limited,
            state: State::Watching,
            condition,
        });
        Ok(())
    }

    /// Takes a quote; its slips are appended, and there may be no more of them than places.
    pub fn quote(
        &mut self,
        market: &mut Market,
        raw: &RawQuote,
        places: usize,
        slips: &mut Vec<Slip>,
    ) -> Result<(), Refusal> {
        let quote = market.check_quote(raw)?;
        if quote.continuous && !self.has_room(quote.share, places) {
            return Err(Refusal::TooFewPlaces);
        }
        market.keep_quote(&quote);
        if quote.continuous {
            let (market, limit) = (&*market, self.limit);
            let tick = Tick { moment: quote.moment, price: quote.prices.last };
            self.orders.retain_mut(|order| {
                !order.is_watching(quote.share) || order.tick(tick, limit, market, slips)
            });
        }
        Ok(())
    }

    /// Whether every order that is watching the share has a place for a slip.
    fn has_room(&self, share: usize, places: usize) -> bool {
        // With a place for every order there is no need to count.
        places >= self.orders.len() || places >= self.orders.iter().filter(|o| o.is_watching(share)).count()
    }

    /// Takes quotes one by one up to the first that is refused, and answers how many were taken.
    pub fn burst(
        &mut self,
        market: &mut Market,
        quotes: impl Iterator<Item = RawQuote>,
        places: usize,
        slips: &mut Vec<Slip>,
    ) -> (u32, Result<(), Refusal>) {
        let written_before = slips.len();
        let mut taken = 0;
        for quote in quotes {
            let left = places - (slips.len() - written_before);
            if let Err(refusal) = self.quote(market, &quote, left, slips) {
                return (taken, Err(refusal));
            }
            taken += 1;
        }
        (taken, Ok(()))
    }

    pub fn cancel(&mut self, number: u32) -> Result<(), Refusal> {
        let place = self.find(number).ok_or(Refusal::NoSuchOrder)?;
        match self.orders[place].state {
            State::Watching | State::Waiting(_) => {
                self.orders.remove(place);
                Ok(())
            }
            State::Claimed(_) | State::EndedUnderClaim => Err(Refusal::UnderClaim),
        }
    }

    pub fn claim(&mut self, number: u32) -> Ticket {
        let mut void = true;
        if let Some(place) = self.find(number)
            && let State::Waiting(market_price) = self.orders[place].state
        {
            self.orders[place].state = State::Claimed(market_price);
            void = false;
        }
        Ticket { book: self.number, number, void }
    }

    /// Settles a claimed order at the price of the fill, or with nothing filled. The ticket is spent in any case.
    pub fn settle(&mut self, ticket: Ticket, fill: Option<Price>) -> Result<(), Refusal> {
        if ticket.void {
            return Err(Refusal::VoidTicket);
        }
        if ticket.book != self.number {
            return Err(Refusal::ForeignTicket);
        }
        let place = self.find(ticket.number).ok_or(Refusal::ForeignTicket)?;
        let order = &mut self.orders[place];
        match order.state {
            State::Watching | State::Waiting(_) => return Err(Refusal::ForeignTicket),
            State::Claimed(market_price) => {
                order.condition.settle(fill.unwrap_or(market_price));
                order.state = State::Watching;
            }
            State::EndedUnderClaim => {
                self.orders.remove(place);
            }
        }
        Ok(())
    }

    pub fn state(&self, number: u32) -> u8 {
        match self.find(number).map(|place| self.orders[place].state) {
            None => 0,
            Some(State::Watching) => 1,
            Some(State::Waiting(_)) => 2,
            Some(State::Claimed(_)) => 3,
            Some(State::EndedUnderClaim) => 4,
        }
    }

    fn find(&self, number: u32) -> Option<usize> {
        self.orders.iter().position(|order| order.number == number)
    }
}
