//! A recorder of two channels: opens a table, queues requests, each with a tag of its own, runs turns and reports what the disk took. While no channel asks, it copies.
// In a product the wrapper is copied beside this file, and the path left out.
#[path = "../../../include/yerbagunt.rs"]
mod yerbagunt;

use yerbagunt::{Order, Reply, Reservation, Session, number};

const WORST: u32 = 25000;
/// The longest that a piece of the copy takes.
const PIECE: u64 = 2 * WORST as u64;

fn show(call: &str, session: &Session, r: Reply) {
    println!("{call:<8} answer {:2} stream {} value {} clock {} tag {}", r.number, r.stream, r.value, session.clock, r.tag);
}

/// The disk: here each request takes 5,000 microseconds, and the seek from one place to another as long again.
fn disk(at: &mut u64, place: u64) -> u64 {
    let taken = if *at == place { 5000 } else { 10000 };
    *at = place;
    taken
}

/// A piece of a background copy is read at one place and written at another, for no channel.
fn copy(at: &mut u64) -> u64 {
    disk(at, 300) + disk(at, 600)
}

fn main() {
    let channels = [
        Reservation { reserved: 25000, period: 250000 },
        Reservation { reserved: 175000, period: 500000 },
    ];
    let mut session = match Session::open(WORST, 1000000, 1, &channels, Order::Nearest) {
        Ok(session) => session,
        // With 7 the load is −margin above the span; else the margin is 0.
        Err(refusal) => return println!("refused {}, margin {}", refusal.number, refusal.margin),
    };
    println!("admitted, margin {} of the span {}", session.margin, session.span);

    // Two requests are for the same place: the tag tells which one is done. There is no channel 3.
    for (stream, place, tag) in [(1, 100, 41), (2, 900, 42), (2, 900, 43), (3, 7, 44)] {
        let reply = session.arrival(stream, place, tag);
        show("arrival", &session, reply);
    }

    let (mut at, mut left) = (0, 3);
    while left > 0 || session.fits(PIECE) {
        let turn = session.turn();
        show("turn", &session, turn);
        if turn.number == number::SENT {
            let reply = session.done(disk(&mut at, turn.value));
            show("done", &session, reply);
            left -= 1;
        } else if turn.number == number::WAIT && session.fits(PIECE) {
            // A piece that is copied now breaks no promise.
            let reply = session.clock(session.clock + copy(&mut at));
            show("copy", &session, reply);
        } else if turn.number == number::WAIT {
            let reply = session.clock(turn.value);
            show("clock", &session, reply);
        } else if turn.number < number::ARRIVED || turn.number == number::UNSOUND {
            return;
        }
    }

    let view = session.view();
    println!("clock {} horizon {} latest safe moment {}", view.clock, view.horizon, view.latest);
    for stream in 1..=session.count {
        let state = session.stream(stream).expect("a stream of the table");
        println!("stream {stream} charge {} of {}", state.charge, state.granted);
    }
}
