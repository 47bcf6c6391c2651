//! Uses a part of the wrapper, which is copied beside this file as a product copies it.
mod yerbagunt;

use yerbagunt::{Book, Change, ORDER_SIZE, Order, Refusal, Reservation, Session, Table, kind, read, salvage, write};

fn opened(order: Order, reserved: u32) -> Result<Session, Refusal> {
    Session::open(25000, 1000000, 1, &[Reservation { reserved, period: 1000000 }], order)
}

/// The place that is sent from 500, where 510 and 495 are queued.
fn sent_from_500(order: Order) -> u64 {
    let mut session = opened(order, 950000).expect("a load that is the span");
    session.arrival(1, 500, 0);
    session.turn();
    session.done(1000);
    session.arrival(1, 510, 0);
    session.arrival(1, 495, 0);
    session.turn().value
}

const EMPTY: Table = Table { worst: 25000, span: 1000000, padding: 1, count: 0, reserved: [0; 8], period: [0; 8] };
const TURN: [u8; 16] = [2, 0, 0, 0, 0, 0, 0, 0, 0, 0, 0, 0, 0, 0, 0, 0];

/// What is read of a file with one turn, and whether it is written again byte for byte; or 16.
fn there_and_back(order: Order, third: u64) -> Result<(Order, u64, bool), u64> {
    let (mut out, mut again) = ([0; 80], [0; 80]);
    let length = write(EMPTY, &TURN, &mut out, order, third)?;
    let (file, table) = read(&out[..length as usize])?;
    write(table, &out[file.start as usize..file.end as usize], &mut again, file.order, file.third)?;
    Ok((file.order, file.third, out == again))
}

/// What is changed of a file with one turn of which a byte is another, and which has one too many; and what is read of what comes out; or 16 or 17.
fn salvaged(byte: usize, room: usize, places: usize) -> Result<(Vec<Change>, u64), u64> {
    let (mut old, mut out, mut changes) = ([0; 59], vec![0; room], vec![Change::default(); places]);
    write(EMPTY, &TURN, &mut old, Order::Nearest, 0)?;
    old[byte] = 3;
    let told = salvage(&old, &mut out, &mut changes)?;
    changes.truncate(told.changes as usize);
    Ok((changes, read(&out[..told.length as usize])?.0.events))
}

/// What two desks are told, and what comes of their table when it is opened.
fn booked() -> (Vec<Result<u64, u64>>, Result<i64, Refusal>) {
    let mut book = Book::begin(25000, 1000000, 1, [300000, 500000]).expect("W, H and k in their ranges");
    let channel = Reservation { reserved: 25000, period: 250000 };
    let told = vec![
        book.add(2, Reservation { reserved: 175000, period: 500000 }),
        book.add(1, channel),
        book.add(1, channel),
        book.add(0, channel),
        book.withdraw(1, 2),
        book.withdraw(1, 1),
        book.add(1, channel),
    ];
    (told, book.open(Order::Nearest).map(|session| session.margin))
}

fn main() {
    let none = Session::open(25000, 1000000, 1, &[], Order::Nearest).err();
    let over = opened(Order::Sweep, 950001).err();
    println!("refused {none:?} and {over:?}");

    let mut session = opened(Order::Sweep, 950000).expect("a load that is the span");
    session.clock(10000);
    let without_span = Session { span: 0, ..session };
    println!("latest {:?} and {:?}", session.latest(), without_span.latest());
    println!("fits {:?}", [15000, 15001, u64::MAX].map(|length| session.fits(length)));

    let mut late = session;
    late.clock(25001);
    session.arrival(1, 100, u32::MAX);
    let sent = session.turn();
    println!("nothing fits {:?}", [late, session, without_span].map(|unfit| unfit.fits(0)));
    let at_disk = session.tag;
    let done = session.done(5000);
    println!("tags {:?}", [sent.tag, at_disk, done.tag, session.tag]);

    println!("desks {:?}", booked());
    println!("not begun {:?} and none booked {:?}", Book::begin(0, 1000000, 1, [0, 0]), Book::begin(25000, 1000000, 1, [0, 0]).map(|book| book.open(Order::Sweep).err()));
    let mut spoilt = Book::begin(25000, 1000000, 1, [0, 0]).expect("W, H and k in their ranges");
    spoilt.desks[1].streams[7].period = 1;
    println!("spoilt {:?}, {:?} and {:?}", spoilt.finish(), spoilt.withdraw(0, 0), spoilt.open(Order::Sweep).err());

    println!("sent from 500 {:?}", [Order::Nearest, Order::Sweep].map(sent_from_500));
    for (order, third) in [(Order::Nearest, 0), (Order::Nearest, ORDER_SIZE), (Order::Sweep, ORDER_SIZE), (Order::Sweep, 0)] {
        println!("a file of {order:?} and {third}: {:?}", there_and_back(order, third));
    }

    for (byte, room, places) in [(2, 58, 2), (58, 58, 1), (57, 42, 3), (0, 59, 3), (2, 57, 2), (2, 58, 1)] {
        println!("another byte at {byte}, and room for {room} and {places}: {:?}", salvaged(byte, room, places));
    }
    println!("kinds {:?}", [kind::CONTENTS, kind::DROPPED, kind::CUT]);
}
