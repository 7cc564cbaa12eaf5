//! An order book that four threads trade on. The book is one document: for each price the quantity that waits there, above 0 where buyers wait and below 0
//! where sellers do. A thread reads the book and its revision, matches its order in its own memory, and puts the new book where the revision is
//! still the same; where another thread was first, it begins anew. So each order is matched with one book, whatever the others do.

use githoppu::{Error, PutIf, Session, Store};
use std::thread;

const TRADERS: usize = 4;
const ORDERS: usize = 500;
const PRICES: usize = 11;
const LEAST: usize = 95;

type Book = [i64; PRICES];

#[derive(Clone, Copy, PartialEq)]
enum Side {
    Buy,
    Sell,
}

/// What was ordered, what of it met another order at once, and how often another thread was first.
#[derive(Default)]
struct Tally {
    bought: i64,
    sold: i64,
    traded: i64,
    again: u64,
}

fn read_book(text: &str) -> Book {
    let mut book = [0; PRICES];
    for (at, word) in text.split(' ').enumerate() {
        book[at] = word.parse().expect("the book has whole numbers");
    }
    book
}

fn write_book(book: &Book) -> String {
    book.map(|quantity| quantity.to_string()).join(" ")
}

/// Buys or sells a quantity at a price or a better one; what finds no other order waits. How much was traded.
fn matched(book: &mut Book, side: Side, price: usize, quantity: i64) -> i64 {
    let sign = if side == Side::Buy { 1 } else { -1 };
    // sellers from the lowest price up, or buyers from the highest price down
    let prices: Vec<usize> = match side {
        Side::Buy => (0..=price).collect(),
        Side::Sell => (price..PRICES).rev().collect(),
    };
    let mut left = quantity;
    for at in prices {
        let some = (-sign * book[at]).clamp(0, left);
        book[at] += sign * some;
        left -= some;
    }
    book[price] += sign * left;
    quantity - left
}

fn order(session: &mut Session, tally: &mut Tally, side: Side, price: usize, quantity: i64) -> Result<(), Error> {
    loop {
        // the revision first: where the book changes between both reads, the put is refused
        let revision = session.revision("book")?.expect("the book is there");
        let mut book = read_book(&session.get("book")?.expect("the book is there"));
        let traded = matched(&mut book, side, price, quantity);
        match session.put_if("book", &write_book(&book), revision)? {
            PutIf::Set(_) => {
                tally.traded += traded;
                match side {
                    Side::Buy => tally.bought += quantity,
                    Side::Sell => tally.sold += quantity,
                }
                return Ok(());
            }
            PutIf::Stale(_) => tally.again += 1,
            PutIf::NoRoom => panic!("the book has its lines"),
        }
    }
}

fn trade(session: &mut Session, mut seed: u32) -> Result<Tally, Error> {
    let mut number = move || {
        seed = seed.wrapping_mul(1_103_515_245).wrapping_add(12_345);
        (seed >> 16) as usize
    };
    let mut tally = Tally::default();
    for _ in 0..ORDERS {
        let side = if number() % 2 == 1 { Side::Buy } else { Side::Sell };
        let price = number() % PRICES;
        let quantity = 1 + (number() % 9) as i64;
        order(session, &mut tally, side, price, quantity)?;
    }
    Ok(tally)
}

fn main() -> Result<(), Error> {
    let mut sessions = Store::open(64, TRADERS)?;
    sessions[0].put("book", &write_book(&[0; PRICES]))?;
    let tallies: Vec<Tally> = thread::scope(|scope| {
        let threads: Vec<_> = sessions.iter_mut().enumerate().map(|(i, session)| scope.spawn(move || trade(session, 7 * i as u32 + 1))).collect();
        threads.into_iter().map(|thread| thread.join().expect("a trader ends")).collect::<Result<_, _>>()
    })?;
    let sum = |what: fn(&Tally) -> i64| tallies.iter().map(what).sum::<i64>();
    let (bought, sold, traded) = (sum(|t| t.bought), sum(|t| t.sold), sum(|t| t.traded));
    let again: u64 = tallies.iter().map(|t| t.again).sum();
    let book = read_book(&sessions[1].get("book")?.expect("the book is there"));
    let buyers: i64 = book.iter().filter(|q| **q > 0).sum();
    let sellers: i64 = -book.iter().filter(|q| **q < 0).sum::<i64>();
    // nothing was lost or made: what was ordered was traded or waits, and no buyer waits at or above a seller's price
    assert_eq!((bought, sold), (traded + buyers, traded + sellers));
    assert!(book.iter().rposition(|q| *q > 0) < book.iter().position(|q| *q < 0).or(Some(PRICES)));
    println!("bought {bought} sold {sold}");
    eprintln!("traded {traded}; waiting: {buyers} to buy, {sellers} to sell, from {LEAST} on; begun anew {again} times");
    Ok(())
}
