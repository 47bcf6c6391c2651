//! Yerbagunt for Rust: one disk shared among up to eight channels. Link `libshelf.a` (x86-64); `yerbagunt.h` says what each number means.
//!
//! Every function answers any input; a refusal changes nothing.

// Few programs use all of it.
#![allow(dead_code)]

use core::mem::offset_of;

/// The version of this wrapper and its library, that of `yerbagunt.h`.
pub const VERSION: &str = "7.2.0";

pub const STREAMS_MAX: usize = 8;
pub const QUEUE_MAX: usize = 16;
/// Of the third body of a session file, which says the order.
pub const ORDER_SIZE: u64 = 4;
/// No file that is salvaged is longer.
pub const SALVAGED_MAX: usize = 64106;

/// The numbers of replies, as in `yerbagunt.h`.
pub mod number {
    pub const OK: u64 = 0;
    pub const COUNT: u64 = 1;
    pub const WORST: u64 = 2;
    pub const SPAN: u64 = 3;
    pub const PADDING: u64 = 4;
    pub const PERIOD: u64 = 5;
    pub const BUDGET: u64 = 6;
    pub const LOAD: u64 = 7;
    pub const NO_STREAM: u64 = 8;
    pub const FULL: u64 = 9;
    pub const BUSY: u64 = 10;
    pub const IDLE: u64 = 11;
    pub const DURATION: u64 = 12;
    pub const PAST: u64 = 13;
    pub const END: u64 = 14;
    pub const NOT_IN_SET: u64 = 15;
    pub const LAYOUT: u64 = 16;
    pub const ROOM: u64 = 17;
    pub const LIMIT: u64 = 18;
    pub const NO_BOOKING: u64 = 19;
    pub const ARRIVED: u64 = 20;
    pub const SENT: u64 = 21;
    pub const EXPIRED: u64 = 22;
    pub const MOVED: u64 = 23;
    pub const WAIT: u64 = 24;
    pub const DONE: u64 = 25;
    pub const OVERLONG: u64 = 26;
    pub const CLOCK: u64 = 27;
    pub const LATE: u64 = 28;
    pub const NO_DESK: u64 = 30;
    pub const UNSOUND: u64 = 31;
}

/// What salvaging changed.
pub mod kind {
    /// The contents table, the first 26 bytes, was rewritten.
    pub const CONTENTS: u64 = 1;
    /// An event was dropped: it is not as laid out, or comes after the first 4,000 that are.
    pub const DROPPED: u64 = 2;
    /// The tail was cut: fewer bytes than an event has.
    pub const CUT: u64 = 3;
}

/// The order in which a turn takes requests. It chooses among those of the set that belong to the streams with the earliest deadline; of requests
/// that are equally near, or for one place, that of the lower stream goes first, and of one stream the one that arrived earlier.
#[repr(u64)]
#[derive(Clone, Copy, Debug, PartialEq, Eq)]
pub enum Order {
    /// The place nearest to the head, above it or below.
    Nearest = 0,
    /// C-SCAN: the smallest place not below the head, and where there is none, the smallest of all.
    Sweep = 1,
}

/// A stream's last closed job; all zero before the first.
#[repr(C)]
#[derive(Clone, Copy, Debug, PartialEq, Eq)]
pub struct Job {
    pub charge: u64,
    pub closed: u64,
    pub deadline: u64,
    pub expired: u64,
    /// Of the charge, what the job started with; its own disk time is charge − start − W × expired.
    pub start: u64,
}

#[repr(C)]
#[derive(Clone, Copy, Debug, PartialEq, Eq)]
pub struct Stream {
    pub reserved: u32,
    pub period: u32,
    pub granted: u64,
    pub release: u64,
    pub deadline: u64,
    pub charge: u64,
    pub expired: u64,
    /// Of the charge, what the open job started with: what the one before it was charged above `granted`, or 0.
    pub start: u64,
    pub queued: u64,
    pub places: [u64; QUEUE_MAX],
    /// Of the requests for these places.
    pub tags: [u32; QUEUE_MAX],
    pub last: Job,
}

/// A call answers 31 to a session whose cells were changed into what no session is. Only `latest` and `fits` look at a few cells and judge no other.
#[repr(C)]
#[derive(Clone, Copy, Debug, PartialEq, Eq)]
pub struct Session {
    pub worst: u32,
    pub span: u32,
    /// k as it was given; 0 stands for 3.
    pub padding: u32,
    /// The tag of the request at the disk, or 0.
    pub tag: u32,
    /// The number of the `Order` that was given; any other number is answered 31.
    pub order: u64,
    pub count: u64,
    /// H less the load, 0 or more; it follows from the table and never changes, and any other number is answered 31.
    pub margin: i64,
    /// The smallest deadline; any other number is answered 31.
    pub horizon: u64,
    /// The disk time that all streams are owed up to the horizon, times H; any other number is answered 31.
    pub remainders: i64,
    pub clock: u64,
    pub head: u64,
    pub served: u64,
    pub place: u64,
    pub streams: [Stream; STREAMS_MAX],
}

const _: () = assert!(size_of::<Stream>() == 296 && size_of::<Session>() == 2456);
const _: () = assert!(offset_of!(Stream, tags) == 192 && offset_of!(Session, tag) == 12 && offset_of!(Session, order) == 16);
const _: () = assert!(offset_of!(Session, margin) == 32 && offset_of!(Session, horizon) == 40 && offset_of!(Session, remainders) == 48);
const _: () = assert!(offset_of!(Session, clock) == 56 && offset_of!(Session, streams) == 88);

#[repr(C)]
#[derive(Clone, Copy, Debug, PartialEq, Eq)]
pub struct Reservation {
    pub reserved: u32,
    pub period: u32,
}

/// Why a table is refused.
#[derive(Clone, Copy, Debug, PartialEq, Eq)]
pub struct Refusal {
    /// 1 to 7; of a booking table that is not sound 31.
    pub number: u64,
    /// H less the load: with 7 it is below 0, so that the load is −margin above H; with 1 to 6 it is 0.
    pub margin: i64,
}

#[repr(C)]
#[derive(Clone, Copy, Debug, PartialEq, Eq)]
pub struct Reply {
    pub number: u64,
    pub stream: u64,
    pub value: u64,
    /// With 21, 25 and 26 the tag of the request, as it was given on arrival; else 0.
    pub tag: u32,
}

const _: () = assert!(size_of::<Reply>() == 32 && offset_of!(Reply, tag) == 24);

#[repr(C)]
#[derive(Clone, Copy, Debug, PartialEq, Eq)]
pub struct View {
    pub number: u64,
    pub clock: u64,
    pub horizon: u64,
    pub latest: u64,
    /// The session's.
    pub margin: i64,
}

const _: () = assert!(size_of::<View>() == 40 && offset_of!(View, margin) == 32);

#[repr(C)]
#[derive(Clone, Copy, Debug, PartialEq, Eq)]
pub struct Table {
    pub worst: u32,
    pub span: u32,
    pub padding: u32,
    pub count: u64,
    pub reserved: [u32; STREAMS_MAX],
    pub period: [u32; STREAMS_MAX],
}

/// The parts of a session file; the trace is the bytes from `start` up to `end`.
#[repr(C)]
#[derive(Clone, Copy, Debug, PartialEq, Eq)]
pub struct File {
    pub number: u64,
    pub count: u64,
    pub start: u64,
    pub end: u64,
    pub events: u64,
    /// A file of two entries means nearest. The library is proved to answer 0 or 1 here.
    pub order: Order,
    /// The length of the third body: 0 in a file of two entries, `ORDER_SIZE` in one of three.
    pub third: u64,
}

const _: () = assert!(size_of::<Order>() == 8 && Order::Nearest as u64 == 0 && Order::Sweep as u64 == 1);
const _: () = assert!(size_of::<File>() == 56 && offset_of!(File, order) == 40 && offset_of!(File, third) == 48);

/// A change, and where in the old file what it took away stands: contents at 0, an event's first byte, or the first byte of the tail.
#[repr(C)]
#[derive(Clone, Copy, Debug, Default, PartialEq, Eq)]
pub struct Change {
    /// A number of `kind`.
    pub kind: u64,
    pub position: u64,
}

/// How long the file is that was salvaged, and how many changes are listed.
#[repr(C)]
#[derive(Clone, Copy, Debug, PartialEq, Eq)]
pub struct Salvaged {
    pub number: u64,
    pub length: u64,
    pub changes: u64,
}

const _: () = assert!(size_of::<Change>() == 16 && offset_of!(Change, position) == 8);
const _: () = assert!(size_of::<Salvaged>() == 24 && offset_of!(Salvaged, changes) == 16);

#[repr(C)]
struct Opening {
    number: u64,
    margin: i64,
    session: Session,
}

const _: () = assert!(size_of::<Opening>() == 2472 && offset_of!(Opening, margin) == 8);

#[repr(C)]
struct Moment {
    number: u64,
    at: u64,
}

const _: () = assert!(size_of::<Moment>() == 16 && offset_of!(Moment, at) == 8);

#[repr(C)]
struct State {
    number: u64,
    stream: Stream,
}

const _: () = assert!(size_of::<State>() == 304);

#[repr(C)]
struct Closing {
    number: u64,
    job: Job,
}

#[repr(C)]
struct Written {
    number: u64,
    length: u64,
}

/// What one of two booking desks has booked; the first `count` streams are used, and the others are 0.
#[repr(C)]
#[derive(Clone, Copy, Debug, PartialEq, Eq)]
pub struct Desk {
    /// On the sum of g × (H / p) over its own streams; a sum that is as large does not pass it.
    pub limit: u64,
    pub count: u64,
    pub streams: [Reservation; STREAMS_MAX],
}

/// A table that two desks share before it is opened. A booking answers 31 to one that breaks 2 to 7 or a limit, or of which an unused cell is not 0.
#[repr(C)]
#[derive(Clone, Copy, Debug, PartialEq, Eq)]
pub struct Book {
    pub worst: u32,
    pub span: u32,
    /// k as it was given; 0 stands for 3.
    pub padding: u32,
    /// 0.
    pub unused: u32,
    pub desks: [Desk; 2],
}

#[repr(C)]
struct Receipt {
    number: u64,
    value: u64,
}

#[repr(C)]
struct Finished {
    number: u64,
    records: [Reservation; STREAMS_MAX],
    count: u64,
}

const _: () = assert!(size_of::<Desk>() == 80 && offset_of!(Desk, count) == 8 && offset_of!(Desk, streams) == 16);
const _: () = assert!(size_of::<Book>() == 176 && offset_of!(Book, desks) == 16 && size_of::<Receipt>() == 16);
const _: () = assert!(size_of::<Finished>() == 80 && offset_of!(Finished, records) == 8 && offset_of!(Finished, count) == 72);

// A slice as it crosses: its pointer and its length. Where one register is left for both, a struct of them would go elsewhere, so that a third
// slice crosses as two arguments.
#[repr(C)]
struct Lent<T> {
    start: *const T,
    length: usize,
}

#[repr(C)]
struct LentMut<T> {
    start: *mut T,
    length: usize,
}

fn lent<T>(slice: &[T]) -> Lent<T> {
    Lent { start: slice.as_ptr(), length: slice.len() }
}

fn lent_mut<T>(slice: &mut [T]) -> LentMut<T> {
    LentMut { start: slice.as_mut_ptr(), length: slice.len() }
}

#[link(name = "shelf", kind = "static")]
unsafe extern "C" {
    fn yerbagunt_open(worst: u32, span: u32, padding: u32, table: Lent<Reservation>, order: Order) -> Opening;
    fn yerbagunt_arrival(session: &mut Session, stream: u64, place: u64, tag: u32) -> Reply;
    fn yerbagunt_turn(session: &mut Session) -> Reply;
    fn yerbagunt_own_turn(session: &mut Session, stream: u64, index: u64) -> Reply;
    fn yerbagunt_done(session: &mut Session, duration: u64) -> Reply;
    fn yerbagunt_clock(session: &mut Session, time: u64) -> Reply;
    fn yerbagunt_view(session: Session) -> View;
    fn yerbagunt_latest(horizon: u64, remainders: i64, span: u64) -> Moment;
    fn yerbagunt_stream(session: Session, stream: u64) -> State;
    fn yerbagunt_last_job(session: Session, stream: u64) -> Closing;
    fn yerbagunt_read(file: Lent<u8>) -> File;
    fn yerbagunt_table(file: Lent<u8>) -> Table;
    fn yerbagunt_write(table: Table, trace: Lent<u8>, out: LentMut<u8>, order: Order, third: u64) -> Written;
    fn yerbagunt_salvage(old: Lent<u8>, out: LentMut<u8>, changes: *mut Change, places: usize) -> Salvaged;
    fn yerbagunt_begin(book: &mut Book, worst: u32, span: u32, padding: u32, limit1: u64, limit2: u64) -> Receipt;
    fn yerbagunt_add(book: &mut Book, desk: u64, reserved: u32, period: u32) -> Receipt;
    fn yerbagunt_withdraw(book: &mut Book, desk: u64, number: u64) -> Receipt;
    fn yerbagunt_finish(book: Book) -> Finished;
}

// Each call is safe. What `yerbagunt.h` asks of a caller holds of Rust's references: they are valid and aligned, what one may change overlaps
// with no other, and one thread at a time has it.
impl Session {
    /// Opens a session with W, H, k, where 0 stands for 3, a table of any length and an order; or says by which number it is refused, and how far.
    pub fn open(worst: u32, span: u32, padding: u32, table: &[Reservation], order: Order) -> Result<Session, Refusal> {
        let opening = unsafe { yerbagunt_open(worst, span, padding, lent(table), order) };
        if opening.number == number::OK { Ok(opening.session) } else { Err(Refusal { number: opening.number, margin: opening.margin }) }
    }

    /// The tag is the caller's own number for the request, and comes back when it is sent and when it is done.
    pub fn arrival(&mut self, stream: u64, place: u64, tag: u32) -> Reply {
        unsafe { yerbagunt_arrival(self, stream, place, tag) }
    }

    pub fn turn(&mut self) -> Reply {
        unsafe { yerbagunt_turn(self) }
    }

    pub fn own_turn(&mut self, stream: u64, index: u64) -> Reply {
        unsafe { yerbagunt_own_turn(self, stream, index) }
    }

    pub fn done(&mut self, duration: u64) -> Reply {
        unsafe { yerbagunt_done(self, duration) }
    }

    pub fn clock(&mut self, time: u64) -> Reply {
        unsafe { yerbagunt_clock(self, time) }
    }

    /// The clock, the horizon, the latest safe moment and the margin; number 31 beside zeros where the session is not sound.
    pub fn view(&self) -> View {
        unsafe { yerbagunt_view(*self) }
    }

    /// The latest safe moment, at any time and without a copy; or none where `yerbagunt_latest` answers 31. It looks at three cells only, and
    /// does not judge the session: one that no call has made may get a moment.
    pub fn latest(&self) -> Option<u64> {
        let moment = unsafe { yerbagunt_latest(self.horizon, self.remainders, self.span.into()) };
        if moment.number == number::OK { Some(moment.at) } else { None }
    }

    /// Whether a request of the caller's own may have the disk now for at most `length`, so that the time, reported when it has ended, is not late.
    /// `yerbagunt_fits` of `yerbagunt.h` says on what that rests.
    pub fn fits(&self, length: u64) -> bool {
        self.served == 0 && self.latest().is_some_and(|latest| self.clock <= latest && length <= latest - self.clock)
    }

    /// A stream, counted from 1; or 31 or 8.
    pub fn stream(&self, stream: u64) -> Result<Stream, u64> {
        let state = unsafe { yerbagunt_stream(*self, stream) };
        if state.number == number::OK { Ok(state.stream) } else { Err(state.number) }
    }

    /// The last job that a stream, counted from 1, closed; or 31 or 8.
    pub fn last_job(&self, stream: u64) -> Result<Job, u64> {
        let closing = unsafe { yerbagunt_last_job(*self, stream) };
        if closing.number == number::OK { Ok(closing.job) } else { Err(closing.number) }
    }
}

impl Receipt {
    /// How many streams the desk has then; or the number of a refusal.
    fn result(self) -> Result<u64, u64> {
        if self.number == number::OK { Ok(self.value) } else { Err(self.number) }
    }
}

impl Book {
    /// Begins a table with W, H, k, where 0 stands for 3, and the limits of desk 1 and desk 2; or says by which number, 2 to 4, it is refused.
    pub fn begin(worst: u32, span: u32, padding: u32, limits: [u64; 2]) -> Result<Book, u64> {
        let none = Desk { limit: 0, count: 0, streams: [Reservation { reserved: 0, period: 0 }; STREAMS_MAX] };
        let mut book = Book { worst: 0, span: 0, padding: 0, unused: 0, desks: [none; 2] };
        let receipt = unsafe { yerbagunt_begin(&mut book, worst, span, padding, limits[0], limits[1]) };
        receipt.result().map(|_| book)
    }

    /// A stream more of a desk, and how many of its own it has then; or 31, 30, 1, 5, 6, 18 or 7.
    pub fn add(&mut self, desk: u64, stream: Reservation) -> Result<u64, u64> {
        unsafe { yerbagunt_add(self, desk, stream.reserved, stream.period) }.result()
    }

    /// One stream less of a desk, by its number among its own, counted from 1, and how many it has then; or 31, 30 or 19.
    pub fn withdraw(&mut self, desk: u64, number: u64) -> Result<u64, u64> {
        unsafe { yerbagunt_withdraw(self, desk, number) }.result()
    }

    /// Opens a session with the streams of both desks, desk 1's first, and an order. Of a table that is sound and has a stream it is admitted.
    pub fn open(&self, order: Order) -> Result<Session, Refusal> {
        let finished = unsafe { yerbagunt_finish(*self) };
        if finished.number != number::OK {
            return Err(Refusal { number: finished.number, margin: 0 });
        }
        Session::open(self.worst, self.span, self.padding, &finished.records[..finished.count as usize], order)
    }

    /// The streams of both desks, desk 1's first, and how many they are; or 31.
    pub fn finish(&self) -> Result<([Reservation; STREAMS_MAX], u64), u64> {
        let finished = unsafe { yerbagunt_finish(*self) };
        if finished.number == number::OK { Ok((finished.records, finished.count)) } else { Err(finished.number) }
    }
}

/// Reads a session file: its parts and its table, or 16.
pub fn read(file: &[u8]) -> Result<(File, Table), u64> {
    let parts = unsafe { yerbagunt_read(lent(file)) };
    if parts.number != number::OK {
        return Err(parts.number);
    }
    Ok((parts, unsafe { yerbagunt_table(lent(file)) }))
}

/// Writes the file of a table, a trace and an order at the start of a buffer: how long it is, or 16 or 17. With a `third` of 0 the file has two
/// entries, and no place for an order but nearest; with `ORDER_SIZE` it has three, and says its order; any other is 16. With the order and the
/// `third` of a `File` it is written again byte for byte.
pub fn write(table: Table, trace: &[u8], out: &mut [u8], order: Order, third: u64) -> Result<u64, u64> {
    let written = unsafe { yerbagunt_write(table, lent(trace), lent_mut(out), order, third) };
    if written.number == number::OK { Ok(written.length) } else { Err(written.number) }
}

/// Salvages a broken session file: writes a sound one of what is sound in it at the start of a buffer, and lists each change, in order of position,
/// at the start of a list; or 16 or 17, as `yerbagunt_salvage` of `yerbagunt.h` says. With a buffer of `SALVAGED_MAX` bytes, or as long as the
/// old file, and `old.len() / 16` places there is no 17.
pub fn salvage(old: &[u8], out: &mut [u8], changes: &mut [Change]) -> Result<Salvaged, u64> {
    let salvaged = unsafe { yerbagunt_salvage(lent(old), lent_mut(out), changes.as_mut_ptr(), changes.len()) };
    if salvaged.number == number::OK { Ok(salvaged) } else { Err(salvaged.number) }
}
