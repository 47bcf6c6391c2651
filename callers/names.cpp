/* Uses each struct by its bare name and each function in C++, where three structs share their name with a function; and both as C writes them. */
#include "hold.h"
#include "yerbagunt.h"

static yerbagunt_session session;

static void calls()
{
    const yerbagunt_reservation records[2] = {{25000, 250000}, {175000, 500000}};
    yerbagunt_order order = YERBAGUNT_SWEEP;
    yerbagunt_opening opening = yerbagunt_open(25000, 1000000, 1, yerbagunt_reservations{records, 2}, order);
    hold(opening.number == YERBAGUNT_OK, "the table is admitted", 0);
    session = opening.session;
    hold(session.order == order, "the session has the order", 0);
    hold(opening.margin == 300000 && session.margin == 300000, "opening and the session tell the margin", 0);
    hold(yerbagunt_arrival(&session, 1, 100, 7).number == YERBAGUNT_ARRIVED, "a request arrives", 0);
    hold(yerbagunt_arrival(&session, 2, 900, UINT32_MAX).number == YERBAGUNT_ARRIVED, "another arrives", 0);
    yerbagunt_reply reply = yerbagunt_own_turn(&session, 2, 0);
    hold(reply.number == YERBAGUNT_SENT && reply.value == 900 && reply.tag == UINT32_MAX, "it is sent first, with its tag", 0);
    hold(session.tag == UINT32_MAX && session.streams[0].tags[0] == 7, "a session has the tags", 0);
    reply = yerbagunt_done(&session, 5000);
    hold(reply.number == YERBAGUNT_DONE && reply.tag == UINT32_MAX, "it is done, with its tag", 0);
    hold(yerbagunt_turn(&session).value == 100, "the house sends the other", 0);
    hold(yerbagunt_done(&session, 5000).tag == 7, "that is done", 0);
    hold(yerbagunt_clock(&session, 20000).number == YERBAGUNT_CLOCK, "the time is reported", 0);
}

static void shown()
{
    yerbagunt_view view = yerbagunt_view(session);
    struct yerbagunt_view as_in_c = yerbagunt_view(session);
    hold(view.clock == 20000 && as_in_c.horizon == 250000 && view.margin == 300000, "a session is shown", 0);
    yerbagunt_state state = yerbagunt_stream(session, 2);
    yerbagunt_stream stream = state.stream;
    struct yerbagunt_state state_as_in_c = yerbagunt_stream(session, 1);
    hold(stream.charge == 5000 && state_as_in_c.stream.period == 250000, "a stream is shown", 0);
    yerbagunt_closing closing = yerbagunt_last_job(session, 1);
    yerbagunt_job job = closing.job;
    hold(closing.number == YERBAGUNT_OK && job.deadline == 0, "no job was closed", 0);
    yerbagunt_moment moment = yerbagunt_latest_of(&session);
    hold(moment.number == YERBAGUNT_OK && moment.at == view.latest, "the latest safe moment is asked for", 0);
    hold(yerbagunt_latest(session.horizon, session.remainders, session.span).at == view.latest, "it is asked of three numbers", 0);
    hold(yerbagunt_fits(&session, moment.at - 20000) && !yerbagunt_fits(&session, moment.at - 19999), "a length fits up to it", 0);
    auto named = &yerbagunt_view_of;
    hold(named(session).latest == view.latest, "a function that shares its name is pointed at by its other name", 0);
}

static void files()
{
    static uint8_t file[74];
    yerbagunt_table table = {25000, 1000000, 1, 2, {25000, 175000}, {250000, 500000}};
    yerbagunt_buffer buffer = {file, sizeof file};
    yerbagunt_written written = yerbagunt_write(table, yerbagunt_bytes{nullptr, 0}, buffer, YERBAGUNT_SWEEP, YERBAGUNT_ORDER_SIZE);
    hold(written.number == YERBAGUNT_OK && written.length == 74, "a file is written", 0);
    yerbagunt_bytes bytes = {file, sizeof file};
    yerbagunt_file parts = yerbagunt_read(bytes);
    hold(parts.number == YERBAGUNT_OK && parts.count == 2 && parts.order == YERBAGUNT_SWEEP && parts.third == YERBAGUNT_ORDER_SIZE, "a file is read", 0);
    struct yerbagunt_table as_in_c = yerbagunt_table(bytes);
    hold(as_in_c.span == 1000000 && as_in_c.period[1] == 500000, "its table is read", 0);
    yerbagunt_number number = YERBAGUNT_ROOM;
    buffer.length = 73;
    hold(yerbagunt_write(table, yerbagunt_bytes{nullptr, 0}, buffer, parts.order, parts.third).number == number, "a number has a type", 0);
}

static void salvages()
{
    static uint8_t old[59], out[YERBAGUNT_SALVAGED_MAX];
    yerbagunt_table table = {25000, 1000000, 1, 2, {25000, 175000}, {250000, 500000}};
    hold(yerbagunt_write(table, yerbagunt_bytes{nullptr, 0}, yerbagunt_buffer{old, 58}, YERBAGUNT_NEAREST, 0).length == 58, "a file of two entries is written", 0);
    yerbagunt_change changes[3];
    yerbagunt_salvaged salvaged = yerbagunt_salvage(yerbagunt_bytes{old, sizeof old}, yerbagunt_buffer{out, sizeof out}, changes, 3);
    yerbagunt_kind kind = YERBAGUNT_CUT;
    hold(salvaged.number == YERBAGUNT_OK && salvaged.length == 58 && salvaged.changes == 1, "a file is salvaged", 0);
    hold(changes[0].kind == kind && changes[0].position == 58, "a change has a kind and a position", 0);
}

static void bookings()
{
    yerbagunt_book book;
    yerbagunt_receipt receipt = yerbagunt_begin(&book, 25000, 1000000, 1, 300000, 500000);
    hold(receipt.number == YERBAGUNT_OK && book.desks[1].limit == 500000, "a booking table is begun", 0);
    hold(yerbagunt_add(&book, 2, 175000, 500000).value == 1 && yerbagunt_add(&book, 1, 25000, 250000).value == 1, "each desk adds a stream", 0);
    hold(yerbagunt_add(&book, 1, 25000, 250000).number == YERBAGUNT_LIMIT && yerbagunt_add(&book, 3, 25000, 250000).number == YERBAGUNT_NO_DESK, "a limit is kept", 0);
    hold(yerbagunt_withdraw(&book, 1, 2).number == YERBAGUNT_NO_BOOKING, "a desk has no second stream", 0);
    yerbagunt_finished finished = yerbagunt_finish(book);
    yerbagunt_desk desk = book.desks[0];
    hold(finished.count == 2 && finished.records[0].period == 250000 && desk.streams[0].reserved == 25000, "desk 1's stream comes first", 0);
    hold(yerbagunt_open(book.worst, book.span, book.padding, yerbagunt_reservations{finished.records, finished.count}, YERBAGUNT_NEAREST).margin == 300000, "the finished table is opened", 0);
}

int main()
{
    calls();
    shown();
    files();
    salvages();
    bookings();
    printf("%lu facts, %lu wrong\n", held, wrong);
    return wrong != 0;
}
