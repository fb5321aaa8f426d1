//! A whole run: the house's two books, each with a market of its own, driven by records and answering in bytes.

use crate::book::{Book, Slip, Ticket};
use crate::making;
use crate::market::{Market, RawQuote};
use crate::records::{self, BookName, Call, Placing, Quotes};
use crate::values::{Limit, Price, Refusal};

const PLACES_AT_FIRST: usize = 4_096;
/// The answer to a settlement where no ticket is held at the place that it names.
const NO_TICKET: u8 = 255;

/// What a run came to.
#[derive(Clone, PartialEq, Eq, Debug)]
pub struct Run {
    pub status: u32,
    /// How many records were carried out.
    pub carried: u64,
    /// The place of the first byte that was not read.
    pub place: u64,
    pub answers: Vec<u8>,
}

pub fn run(limit: u32, rows: u32, calls: &[u8]) -> Run {
    let mut run = Run { status: 0, carried: 0, place: 0, answers: Vec::new() };
    let limit = match Limit::new(limit) {
        Ok(limit) => limit,
        Err(refusal) => {
            run.status = u32::from(refusal.number());
            return run;
        }
    };
    let mut house = House::new(limit, rows);
    let mut rest = calls;
    while !rest.is_empty() {
        match records::read(rest) {
            Ok((call, length)) => {
                house.carry_out(&call, &mut run.answers);
                rest = &rest[length..];
                run.carried += 1;
            }
            Err(fault) => {
                run.status = fault as u32;
                break;
            }
        }
    }
    house.end(&mut run.answers);
    run.place = (calls.len() - rest.len()) as u64;
    run
}

/// A book with a market of its own. The two markets of a house may come to differ, since a quote may be refused by one
/// book for want of slip places and taken by the other.
struct Desk {
    book: Book,
    market: Market,
    /// The slips of the call that is under way, kept here so that their room is used again.
    slips: Vec<Slip>,
}

impl Desk {
    fn new(number: u8, limit: Limit, rows: u32) -> Self {
        Self { book: Book::new(number, limit, rows), market: Market::new(), slips: Vec::new() }
    }

    fn quote(&mut self, quote: &RawQuote, places: usize) -> Result<(), Refusal> {
        self.slips.clear();
        self.book.quote(&mut self.market, quote, places, &mut self.slips)
    }

    fn burst(&mut self, quotes: Quotes<'_>, places: usize) -> (u32, Result<(), Refusal>) {
        self.slips.clear();
        self.book.burst(&mut self.market, quotes.iter(), places, &mut self.slips)
    }

    fn written(&self) -> u32 {
        self.slips.len() as u32
    }
}

struct House {
    single: Desk,
    series: Desk,
    /// Those of both books, the oldest first.
    tickets: Vec<Ticket>,
    places: usize,
}

impl House {
    fn new(limit: Limit, rows: u32) -> Self {
        Self {
            single: Desk::new(1, limit, rows),
            series: Desk::new(2, limit, rows),
            tickets: Vec::new(),
            places: PLACES_AT_FIRST,
        }
    }

    fn desks(&mut self) -> [&mut Desk; 2] {
        [&mut self.single, &mut self.series]
    }

    fn desk(&mut self, name: BookName) -> &mut Desk {
        match name {
            BookName::Single => &mut self.single,
            BookName::Series => &mut self.series,
        }
    }

    fn carry_out(&mut self, call: &Call<'_>, answers: &mut Vec<u8>) {
        match *call {
            Call::List { share, closes } => {
                for desk in self.desks() {
                    answers.push(number_of(desk.market.list(share, closes.iter())));
                }
            }
            Call::Day { share, day } => {
                for desk in self.desks() {
                    answers.push(number_of(desk.book.open_day(&mut desk.market, share, day)));
                }
            }
            Call::Places(places) => self.places = places as usize,
            Call::Place(ref placing) => answers.push(number_of(self.place(placing))),
            Call::Quote(ref quote) => self.quote(quote, answers),
            Call::Burst(quotes) => self.burst(quotes, answers),
            Call::Cancel { book, number } => answers.push(number_of(self.desk(book).book.cancel(number))),
            Call::Claim { book, number } => answers.push(self.claim(book, number)),
            Call::Settle { book, ticket, price } => answers.push(self.settle(book, ticket, price)),
            Call::State { book, number } => answers.push(self.desk(book).book.state(number)),
        }
    }

    fn place(&mut self, placing: &Placing) -> Result<(), Refusal> {
        let order = making::order(placing)?;
        let desk = self.desk(placing.kind.book());
        desk.book.place(&desk.market, order)
    }

    fn quote(&mut self, quote: &RawQuote, answers: &mut Vec<u8>) {
        let places = self.places;
        for desk in self.desks() {
            answers.push(number_of(desk.quote(quote, places)));
            answers.extend(desk.written().to_be_bytes());
        }
        self.write_slips(answers);
    }

    fn burst(&mut self, quotes: Quotes<'_>, answers: &mut Vec<u8>) {
        let places = self.places;
        for desk in self.desks() {
            let (taken, stop) = desk.burst(quotes, places);
            answers.extend(taken.to_be_bytes());
            answers.extend(desk.written().to_be_bytes());
            answers.push(number_of(stop));
        }
        self.write_slips(answers);
    }

    fn write_slips(&self, answers: &mut Vec<u8>) {
        for slip in self.single.slips.iter().chain(&self.series.slips) {
            answers.extend(slip_bytes(slip));
        }
    }

    fn claim(&mut self, book: BookName, number: u32) -> u8 {
        let ticket = self.desk(book).book.claim(number);
        self.tickets.push(ticket);
        u8::from(ticket.is_void())
    }

    fn settle(&mut self, book: BookName, ticket: u32, price: u32) -> u8 {
        let place = ticket as usize;
        if place >= self.tickets.len() {
            return NO_TICKET;
        }
        match Price::new_or_missing(price) {
            // The ticket is kept.
            Err(refusal) => refusal.number(),
            Ok(fill) => {
                let ticket = self.tickets.remove(place);
                number_of(self.desk(book).book.settle(ticket, fill))
            }
        }
    }

    /// Settles the tickets that are still held, with nothing filled, each in its own book.
    fn end(&mut self, answers: &mut Vec<u8>) {
        for ticket in std::mem::take(&mut self.tickets) {
            let desk = if ticket.book() == 1 { &mut self.single } else { &mut self.series };
            answers.push(number_of(desk.book.settle(ticket, None)));
        }
    }
}

fn number_of(answer: Result<(), Refusal>) -> u8 {
    answer.err().map_or(0, Refusal::number)
}

pub const SLIP: usize = 26;

fn slip_bytes(slip: &Slip) -> [u8; SLIP] {
    let mut bytes = [0; SLIP];
    bytes[0..4].copy_from_slice(&slip.number.to_be_bytes());
    bytes[4..8].copy_from_slice(&slip.moment.to_be_bytes());
    bytes[8] = slip.side as u8;
    bytes[9..13].copy_from_slice(&slip.trigger.get().to_be_bytes());
    bytes[13..17].copy_from_slice(&slip.market.get().to_be_bytes());
    bytes[17..21].copy_from_slice(&slip.price.map_or(0, Price::get).to_be_bytes());
    bytes[21..25].copy_from_slice(&slip.quantity.to_be_bytes());
    bytes[25] = slip.outcome as u8;
    bytes
}
