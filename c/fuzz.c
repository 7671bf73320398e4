/*
 * Random and structured bytes through every call of the archive. After a refusal what was lent is as it was, after an answer nothing after the
 * told length has changed, and calls that belong together agree. The reader of fragments, options, response records and the ledger are compared
 * whole with a rendering of the specification in C. Every call must be answered, and be refused by, or answer, each number that the header gives
 * it, at least once.
 */
#include "fuzz.h"

#define LONGEST 4000

/* Events and records. */

static size_t put_event(uint8_t *line, uint8_t what, uint8_t code, uint8_t option, const uint8_t *payload, size_t length)
{
	size_t n = 0;

	if (what != TV_DATA)
		line[n++] = 255;
	if (what == TV_COMMAND || what == TV_NEGOTIATION)
		line[n++] = code;
	if (what == TV_SUBNEGOTIATION)
		line[n++] = 250;
	if (what == TV_NEGOTIATION || what == TV_SUBNEGOTIATION)
		line[n++] = option;
	for (size_t i = 0; (what == TV_DATA || what == TV_SUBNEGOTIATION) && i < length; i++) {
		line[n++] = payload[i];
		if (payload[i] == 255)
			line[n++] = 255;
	}
	if (what == TV_SUBNEGOTIATION) {
		line[n++] = 255;
		line[n++] = 240;
	}
	return n;
}

/* A stream of events, or of anything; mostly shorter than limit. */
static size_t fill_stream(uint8_t *line, size_t limit)
{
	uint8_t payload[1100];
	size_t n = 0, events = below(12);

	if (one_in(3))
		return fill(line, below(200));
	while (events-- && n < limit / 2) {
		size_t length = one_in(60) ? 1000 + below(60) : 1 + below(30);
		uint8_t code = (uint8_t)(one_in(2) ? TV_EOR : 241 + below(9)), what = (uint8_t)(1 + below(4));
		if (what == TV_NEGOTIATION)
			code = (uint8_t)(TV_WILL + below(4));
		n += put_event(line + n, what, code, (uint8_t)any(), payload, fill(payload, n + 2 * length < limit ? length : 1));
	}
	return one_in(2) ? n : disturb(line, n);
}

/* The bytes from a place up to another, each doubled 255 as one. */
static size_t undoubled(const uint8_t *from, const uint8_t *to, uint8_t *plain)
{
	size_t n = 0;

	for (; from < to; from++) {
		plain[n++] = *from;
		from += *from == 255;
	}
	return n;
}

static void same_event(tv_event_t a, tv_event_t b)
{
	CHECK(a.what == b.what && a.refusal == b.refusal && a.code == b.code && a.option == b.option);
	CHECK(a.length == b.length && a.next == b.next);
}

static tv_event_t look_at(const uint8_t *line, size_t length, size_t at)
{
	struct slice s = give(0, line, length);
	tv_event_t e = tv_look(s.bytes, s.length, at);

	given_as_were();
	if (!counted(LOOK, e.refusal))
		same_event(e, (tv_event_t){.refusal = e.refusal});
	CHECK((e.refusal == 5) == (at > length));
	CHECK(e.what <= TV_SUBNEGOTIATION && (e.what == TV_END || (e.next > at && e.next <= length)));
	return e;
}

/* The event at a place, looked at and read. */
static tv_event_t try_event(const uint8_t *line, size_t length, size_t at)
{
	uint8_t plain[LONGEST];
	tv_event_t e = look_at(line, length, at), r;
	size_t room = room_near(e.length);
	struct slice s = give(0, line, length);
	uint8_t *out = lend(&out_room, room);

	r = tv_read(s.bytes, s.length, at, out, room);
	given_as_were();
	only_front(&out_room, r.length);
	if (!counted(READ, r.refusal)) {
		CHECK(r.refusal == (e.refusal ? e.refusal : 4) && (e.refusal || room < e.length));
		same_event(r, (tv_event_t){.refusal = r.refusal});
		return e;
	}
	same_event(e, r);
	if (e.what == TV_DATA)
		CHECK(undoubled(line + at, line + e.next, plain) == e.length);
	if (e.what == TV_SUBNEGOTIATION)
		CHECK(undoubled(line + at + 3, line + e.next - 2, plain) == e.length);
	CHECK(!memcmp(front(&out_room), plain, e.length));
	return e;
}

/* The record from a place on, by its events. */
static tv_record_t record_by_events(const uint8_t *line, size_t length, size_t at, uint8_t *data)
{
	tv_record_t r = {0, 0, 0, 0};

	for (;;) {
		tv_event_t e = look_at(line, length, at);
		if (e.refusal || e.what == TV_END)
			return (tv_record_t){.refusal = e.refusal};
		if (e.what == TV_DATA)
			r.length += undoubled(line + at, line + e.next, data + r.length);
		at = e.next;
		if (e.what == TV_COMMAND && e.code == TV_EOR)
			return (tv_record_t){1, 0, r.length, at};
	}
}

static void try_record(const uint8_t *line, size_t length, size_t at)
{
	uint8_t data[LONGEST];
	tv_record_t expected = record_by_events(line, length, at, data), r;
	size_t room = room_near(expected.length);
	struct slice s = give(0, line, length);
	uint8_t *out = lend(&out_room, room);

	r = tv_read_record(s.bytes, s.length, at, out, room);
	given_as_were();
	only_front(&out_room, r.length);
	counted(READ_RECORD, r.refusal);
	if (room < expected.length)
		expected = (tv_record_t){.refusal = 4};
	CHECK(r.complete == expected.complete && r.refusal == expected.refusal && r.length == expected.length && r.next == expected.next);
	CHECK(!memcmp(front(&out_room), data, r.length));
}

static void try_stream(void)
{
	uint8_t line[LONGEST];
	size_t length = fill_stream(line, 3200), at = 0;

	for (;;) {
		tv_event_t e = try_event(line, length, at);
		if (e.refusal || e.what == TV_END)
			break;
		at = e.next;
	}
	try_event(line, length, below(length + 5));
	try_record(line, length, 0);
	try_record(line, length, below(length + 5));
}

/* Streams by fragments. */

/* Where a stream is, by what of it is not whole: nothing, or the bytes of a command or subnegotiation, and then its payload. */
struct course {
	uint8_t begun[3], payload[TV_PAYLOAD_LIMIT], fault;
	size_t length, carried;
	bool doubling;
};

/* What a call is to give. */
struct gift {
	uint8_t number, what, code, option, data[TV_CALL_LIMIT];
	size_t taken, length;
};

/* The reader's numbers, by the header's words. */
static tv_reader_t reader_of(const struct course *c)
{
	if (c->fault)
		return (tv_reader_t){TV_STAGE_FAILED, c->fault, 0};
	if (c->length < 2)
		return (tv_reader_t){c->length ? TV_STAGE_IAC_SEEN : TV_STAGE_DATA, 0, 0};
	if (c->begun[1] != TV_SB)
		return (tv_reader_t){TV_STAGE_CHOOSING, c->begun[1], 0};
	if (c->length < 3)
		return (tv_reader_t){TV_STAGE_OPENING, 0, 0};
	return (tv_reader_t){c->doubling ? TV_STAGE_CLOSING : TV_STAGE_PAYLOAD, c->begun[2], c->carried};
}

/* And the course that numbers name. */
static struct course course_of(tv_reader_t r, const uint8_t *kept)
{
	struct course c = {.begun = {TV_IAC}};
	bool carries = r.stage == TV_STAGE_PAYLOAD || r.stage == TV_STAGE_CLOSING;

	if (r.stage == TV_STAGE_FAILED && (r.code == 2 || r.code == 3 || r.code == 6))
		c.fault = r.code;
	if (r.stage == TV_STAGE_IAC_SEEN)
		c.length = 1;
	if (r.stage == TV_STAGE_CHOOSING && r.code >= TV_WILL && r.code <= TV_DONT)
		c.begun[1] = r.code, c.length = 2;
	if (r.stage == TV_STAGE_OPENING || carries)
		c.begun[1] = TV_SB, c.length = 2;
	if (carries) {
		c.begun[2] = r.code, c.length = 3;
		c.doubling = r.stage == TV_STAGE_CLOSING;
		c.carried = r.count < TV_PAYLOAD_LIMIT ? r.count : TV_PAYLOAD_LIMIT;
		memcpy(c.payload, kept, c.carried);
	}
	return c;
}

/* A byte inside a subnegotiation: whether the call ends. */
static bool carry_on(struct course *c, struct gift *g, uint8_t b)
{
	bool second = c->doubling;

	c->doubling = !second && b == TV_IAC;
	if (c->doubling)
		return false;
	if (second && b == TV_SE) {
		g->what = TV_SUBNEGOTIATION, g->option = c->begun[2];
		return true;
	}
	if (second && b != TV_IAC)
		return (c->fault = 2);
	if (c->carried == TV_PAYLOAD_LIMIT)
		return (c->fault = 3);
	c->payload[c->carried++] = b;
	return false;
}

/* The next byte of a stream: whether the call ends. */
static bool go_on(struct course *c, struct gift *g, uint8_t b)
{
	if (c->length == 3)
		return carry_on(c, g, b);
	if ((c->length == 0 && b != TV_IAC) || (c->length == 1 && b == TV_IAC)) {
		g->data[g->length++] = b;
		c->length = 0;
		return false;
	}
	c->begun[c->length++] = b;
	if (c->length == 3 && c->begun[1] == TV_SB) {
		c->carried = 0, c->doubling = false;
		return false;
	}
	if (c->length == 3)
		g->what = TV_NEGOTIATION, g->code = c->begun[1], g->option = b;
	else if (c->length == 2 && (b < TV_EOR || b == TV_SE))
		c->fault = 6;
	else if (c->length == 2 && b < TV_SB)
		g->what = TV_COMMAND, g->code = b;
	return g->what || c->fault;
}

static struct gift gift_of(struct course *c, const uint8_t *fragment, size_t length, size_t room)
{
	struct gift g = {0};

	if (room < TV_READER_ROOM)
		g.number = 4;
	else
		g.number = c->fault;
	while (!g.number && !g.what && g.taken < length && g.taken < TV_CALL_LIMIT && !go_on(c, &g, fragment[g.taken++]))
		continue;
	if (!g.number)
		g.number = c->fault;
	if (g.what)
		c->length = 0;
	return g;
}

static bool same_reader(tv_reader_t a, tv_reader_t b)
{
	return a.stage == b.stage && a.code == b.code && a.count == b.count;
}

static uint8_t close_reader(tv_reader_t reader)
{
	uint8_t n = tv_reader_close(reader);

	counted(READER_CLOSE, n);
	return n;
}

/* One call, compared whole. */
static tv_fed_t feed(tv_reader_t reader, struct course *c, const uint8_t *fragment, size_t length)
{
	size_t room = one_in(8) ? below(TV_READER_ROOM) : one_in(8) ? TV_READER_ROOM - 1 : TV_READER_ROOM + (one_in(2) ? 0 : below(100));
	struct slice s = give(0, fragment, length);
	uint8_t *out = lend(&out_room, room), *kept = kept_room.memory + GUARD;
	bool idle = room < TV_READER_ROOM || c->fault;
	struct gift g = gift_of(c, fragment, length, room);
	size_t payload = g.what == TV_SUBNEGOTIATION ? c->carried : 0;

	memcpy(kept_room.before, kept_room.memory, sizeof kept_room.before);
	tv_fed_t f = tv_reader_feed(reader, kept, s.bytes, s.length, out, room);
	given_as_were();
	counted(READER_FEED, f.number);
	CHECK(f.number == g.number && f.what == g.what && f.code == g.code && f.option == g.option);
	CHECK(f.taken == g.taken && f.length == g.length && f.payload == payload);
	only_front(&out_room, f.length + f.payload);
	CHECK(!memcmp(front(&out_room), g.data, g.length) && !memcmp(front(&out_room) + f.length, c->payload, payload));
	only_front(&kept_room, idle ? 0 : TV_PAYLOAD_LIMIT);
	CHECK(same_reader(f.reader, idle ? reader : reader_of(c)));
	if (!idle)
		CHECK(!memcmp(kept, c->payload, f.reader.count));
	CHECK(close_reader(f.reader) == (c->fault ? c->fault : c->length ? 1 : 0));
	return f;
}

/* What a stream came to, so that two ways of reading it can be compared: each piece by a byte that says what it is. */
static struct account {
	uint8_t bytes[4 * LONGEST];
	size_t length;
} by_calls, by_events;

static void note(struct account *a, uint8_t what, uint8_t code, uint8_t option, const uint8_t *bytes, size_t length)
{
	if (what != TV_DATA) {
		a->bytes[a->length++] = what;
		a->bytes[a->length++] = code;
		a->bytes[a->length++] = option;
	}
	for (size_t i = 0; i < length; i++) {
		a->bytes[a->length++] = TV_DATA;
		a->bytes[a->length++] = bytes[i];
	}
}

/* The bytes that calls took, read at once. */
static void read_at_once(const uint8_t *line, size_t taken, tv_reader_t reader)
{
	uint8_t plain[LONGEST];
	size_t at = 0;
	tv_event_t e;

	by_events.length = 0;
	while ((e = look_at(line, taken, at)).what != TV_END) {
		size_t n = e.what == TV_DATA ? undoubled(line + at, line + e.next, plain)
				: e.what == TV_SUBNEGOTIATION ? undoubled(line + at + 3, line + e.next - 2, plain) : 0;
		note(&by_events, e.what, e.code, e.option, plain, n);
		at = e.next;
	}
	CHECK(close_reader(reader) == e.refusal);
	CHECK(by_calls.length == by_events.length && !memcmp(by_calls.bytes, by_events.bytes, by_calls.length));
}

static void try_fragments(void)
{
	uint8_t line[LONGEST];
	size_t length = fill_stream(line, 3200), at = 0, most = one_in(12) ? 1 : one_in(2) ? 20 : 3000;
	bool forged = one_in(4);
	tv_reader_t reader = tv_reader_fresh();
	struct course c;

	counted(READER_FRESH, 0);
	lend(&kept_room, TV_PAYLOAD_LIMIT);
	if (forged) {
		reader = (tv_reader_t){(uint8_t)below(9), (uint8_t)(one_in(2) ? below(8) : 250 + below(6)), one_in(4) ? any() : below(1040)};
		if (one_in(8))
			reader = (tv_reader_t){(uint8_t)any(), (uint8_t)any(), any()};
	}
	c = course_of(reader, kept_room.memory + GUARD);
	by_calls.length = 0;
	for (size_t tries = 2 * length + 20; tries; tries--) {
		size_t n = below(most + 1);
		tv_fed_t f = feed(reader, &c, line + at, n < length - at ? n : length - at);
		note(&by_calls, TV_DATA, 0, 0, front(&out_room), f.length);
		if (f.what)
			note(&by_calls, f.what, f.code, f.option, front(&out_room) + f.length, f.payload);
		at += f.taken;
		reader = f.reader;
		if ((c.fault || at == length) && one_in(4))
			break;
	}
	if (!forged)
		read_at_once(line, at, reader);
	counted(READER_RESET, 0);
	CHECK(same_reader(tv_reader_reset(reader), tv_reader_fresh()));
}

/* The refusal of what is to be written, by the header's words. */
static uint8_t refusal_of(uint8_t what, uint8_t code, size_t length)
{
	switch (what) {
	case TV_DATA: return length ? 0 : 7;
	case TV_COMMAND: return code == TV_EOR || (code > 240 && code < 250) ? 0 : 7;
	case TV_NEGOTIATION: return code >= TV_WILL && code <= TV_DONT ? 0 : 7;
	case TV_SUBNEGOTIATION: return length > TV_PAYLOAD_LIMIT ? 3 : 0;
	default: return 7;
	}
}

static void try_write(void)
{
	uint8_t payload[1100], line[LONGEST], what = (uint8_t)below(6), code = (uint8_t)(one_in(4) ? any() : 236 + below(20)), option = (uint8_t)any();
	size_t length = fill(payload, one_in(20) ? 1000 + below(50) : below(40));
	uint8_t refusal = refusal_of(what, code, length);
	size_t whole = refusal ? below(20) : put_event(line, what, code, option, payload, length), room = room_near(whole);
	struct slice s = give(0, payload, length);
	uint8_t *out = lend(&out_room, room);
	tv_written_t w = tv_write(what, code, option, s.bytes, s.length, out, room);

	CHECK(w.refusal == (refusal ? refusal : room < whole ? 4 : 0));
	if (!written(WRITE, w))
		return;
	CHECK(w.length == whole && !memcmp(out, line, whole));
	tv_event_t e = try_event(line, whole, 0);
	CHECK(e.what == what && e.next == whole);
	CHECK(e.code == (what == TV_COMMAND || what == TV_NEGOTIATION ? code : 0));
	CHECK(e.option == (what == TV_NEGOTIATION || what == TV_SUBNEGOTIATION ? option : 0));
	CHECK(e.length == (what == TV_DATA || what == TV_SUBNEGOTIATION ? length : 0));
}

/* Listing. */

static size_t line_at(const uint8_t *line, size_t length, size_t at, uint8_t *text)
{
	struct slice s = give(0, line, length);
	uint8_t *out = lend(&out_room, TV_LINE_ROOM);
	tv_written_t w = tv_line(s.bytes, s.length, at, out, TV_LINE_ROOM);

	CHECK(written(LINE, w) && w.length && out[w.length - 1] == '\n');
	memcpy(text, out, w.length);
	if (one_in(4)) {
		size_t room = below(w.length);
		s = give(0, line, length);
		CHECK(!written(LINE, tv_line(s.bytes, s.length, at, lend(&out_room, room), room)));
	}
	return w.length;
}

static void try_list(void)
{
	uint8_t line[LONGEST], text[CAPACITY];
	size_t length = fill_stream(line, 300), at = 0, n = 0;
	tv_event_t e;

	do {
		n += line_at(line, length, at, text + n);
		e = look_at(line, length, at);
		at = e.next;
	} while (!e.refusal && e.what != TV_END);
	line_at(line, length, below(length + 5), text + n);

	size_t room = room_near(n);
	struct slice s = give(0, line, length);
	uint8_t *out = lend(&out_room, room);
	tv_written_t w = tv_list(s.bytes, s.length, out, room);
	if (written(LIST, w))
		CHECK(w.length == n && !memcmp(out, text, n));
	else
		CHECK(room < n);
}

/* Options. */

/* The specification's table: a row for each state, a column for receive on accepted and declined, receive off, request on, request off. */
#define SAME 0xFF
enum { NOTHING, SEND_ON, SEND_OFF };
static const struct cell {
	uint8_t next, number, sends;
} table_of_options[6][5] = {
	{{1, 0, SEND_ON}, {0, 0, SEND_OFF}, {0, 0, NOTHING}, {4, 0, SEND_ON}, {SAME, 11, NOTHING}},
	{{1, 0, NOTHING}, {1, 0, NOTHING}, {0, 0, SEND_OFF}, {SAME, 11, NOTHING}, {2, 0, SEND_OFF}},
	{{0, 14, NOTHING}, {0, 14, NOTHING}, {0, 0, NOTHING}, {3, 0, NOTHING}, {SAME, 12, NOTHING}},
	{{1, 14, NOTHING}, {1, 14, NOTHING}, {4, 0, SEND_ON}, {SAME, 13, NOTHING}, {2, 0, NOTHING}},
	{{1, 0, NOTHING}, {1, 0, NOTHING}, {0, 0, NOTHING}, {SAME, 12, NOTHING}, {5, 0, NOTHING}},
	{{2, 0, SEND_OFF}, {2, 0, SEND_OFF}, {0, 0, NOTHING}, {4, 0, NOTHING}, {SAME, 13, NOTHING}},
};
static const uint8_t carried[] = {0, 3, 24, 25, 39};

/* What one call asks of one side: of an option command that is received, or of a request. */
struct asked {
	bool ours, receives, on, accept;
	uint8_t option;
};

/* Numbers that name no state read as off. */
static tv_sides_t as_read(tv_sides_t given)
{
	uint8_t *sides = (uint8_t *)&given;

	for (size_t i = 0; i < sizeof given; i++)
		sides[i] = sides[i] < 6 ? sides[i] : 0;
	return given;
}

/* The answer by the table. */
static tv_answered_t answer_by(tv_sides_t given, struct asked q)
{
	tv_answered_t a = {.sides = given};
	uint8_t *sides = (uint8_t *)&a.sides;
	const uint8_t *option = memchr(carried, q.option, sizeof carried);
	struct cell cell = {SAME, q.receives ? 0 : 10, q.receives && q.on ? SEND_OFF : NOTHING};
	size_t side = option ? 2 * (size_t)(option - carried) + !q.ours : 0;

	if (option)
		cell = table_of_options[sides[side] < 6 ? sides[side] : 0][q.receives ? q.on ? q.accept ? 0 : 1 : 2 : q.on ? 3 : 4];
	a.number = cell.number;
	if (a.number && a.number != TV_NOTE_OFF_ANSWERED_BY_ON)
		return a;
	a.sides = as_read(given);
	if (option)
		sides[side] = cell.next;
	if (cell.sends == NOTHING)
		return a;
	a.writes = 1;
	a.code = (uint8_t)((q.ours ? TV_WILL : TV_DO) + (cell.sends == SEND_OFF));
	a.option = q.option;
	return a;
}

static struct asked received(uint8_t code, uint8_t option, bool accept)
{
	return (struct asked){code == TV_DO || code == TV_DONT, true, code == TV_WILL || code == TV_DO, accept, option};
}

static bool is_option_command(uint8_t code)
{
	return code >= TV_WILL && code <= TV_DONT;
}

static bool refuses(uint8_t number)
{
	return number && number != TV_NOTE_OFF_ANSWERED_BY_ON;
}

static tv_answered_t try_step(tv_sides_t sides, struct asked q, uint8_t code)
{
	tv_answered_t a, expected = {.sides = sides, .number = 6};

	if (q.receives)
		a = tv_sides_receive(sides, code, q.option, q.accept);
	else
		a = tv_sides_request(sides, q.ours, q.option, q.on);
	if (!q.receives || is_option_command(code))
		expected = answer_by(sides, q);
	CHECK(!memcmp(&a, &expected, sizeof a));
	counted(q.receives ? SIDES_RECEIVE : SIDES_REQUEST, refuses(a.number) ? a.number : 0);
	return a;
}

/* A step with its command at a place of a line: by the step alone, by the room, and by the place. */
static void try_sent(enum call call, tv_sides_t given, tv_answered_t a, size_t room, size_t at, tv_sent_t sent)
{
	uint8_t number = at > room ? 5 : a.writes && room - at < 3 ? 4 : a.number;
	bool put = !refuses(number) && a.writes;

	given_as_were();
	CHECK(sent.number == number && sent.place == at + (put ? 3 : 0));
	CHECK(!memcmp(&sent.sides, refuses(number) ? &given : &a.sides, sizeof given));
	only_between(&out_room, put ? at : 0, put ? at + 3 : 0);
	if (put) {
		const uint8_t *bytes = front(&out_room) + at;
		CHECK(bytes[0] == TV_IAC && bytes[1] == a.code && bytes[2] == a.option);
	}
	counted(call, refuses(number) ? number : 0);
}

/* What stands at a place is heard: an option command is a receipt, any other event is nothing. */
static tv_event_t try_hear(tv_sides_t sides, const uint8_t *line, size_t length, size_t from)
{
	size_t room = below(12), at = below(room + (one_in(4) ? 3 : 1));
	bool accept = one_in(2);
	tv_event_t e = look_at(line, length, from);
	tv_answered_t a = {.sides = e.refusal ? sides : as_read(sides), .number = e.refusal};
	struct slice s = give(0, line, length);
	uint8_t *out = lend(&out_room, room);

	if (!e.refusal && e.what == TV_NEGOTIATION)
		a = answer_by(sides, received(e.code, e.option, accept));
	try_sent(OPTION_HEAR, sides, a, room, at, tv_option_hear(sides, s.bytes, s.length, from, accept, out, room, at));
	return e;
}

static void try_hear_all(tv_sides_t sides)
{
	uint8_t line[LONGEST];
	size_t length = fill_stream(line, 2600), at = 0;
	tv_event_t e;

	do {
		e = try_hear(sides, line, length, at);
		at = e.next;
	} while (!e.refusal && e.what != TV_END);
	try_hear(sides, line, length, below(length + 3));
}

static tv_sides_t try_option(tv_sides_t sides)
{
	uint8_t code = (uint8_t)(one_in(20) ? any() : TV_WILL + below(4)), option = one_in(8) ? (uint8_t)any() : carried[below(5)];
	struct asked q = one_in(2) ? received(code, option, one_in(2)) : (struct asked){one_in(2), false, one_in(2), false, option};
	tv_answered_t a = try_step(sides, q, code);
	size_t room = below(12), at = below(room + 3);
	uint8_t *out = lend(&out_room, room);

	if (q.receives)
		try_sent(OPTION_RECEIVE, sides, a, room, at, tv_option_receive(sides, code, option, q.accept, out, room, at));
	else
		try_sent(OPTION_REQUEST, sides, a, room, at, tv_option_request(sides, q.ours, option, q.on, out, room, at));
	return a.sides;
}

static void try_sides(void)
{
	static const tv_sides_t none;
	tv_sides_t sides = tv_sides_fresh();

	counted(SIDES_FRESH, 0);
	CHECK(!memcmp(&sides, &none, sizeof sides));
	if (one_in(4))
		for (size_t i = 0; i < sizeof sides; i++)
			((uint8_t *)&sides)[i] = (uint8_t)below(9);
	for (size_t i = below(12); i; i--)
		sides = try_option(sides);
	try_hear_all(sides);
}

/* Environment strings. */

#define NUMBERS (TV_ENV_NUMBERS * (TV_ENV_VARIABLES + 4))

/* Names and values with the records of their variables. */
struct variables {
	uint8_t first, bytes[1100];
	size_t length, count, numbers[NUMBERS];
};

static uint64_t absent, undefined;

static size_t put_escaped(uint8_t *to, const uint8_t *from, size_t length)
{
	size_t n = 0;

	for (size_t i = 0; i < length; i++) {
		if (from[i] < 4 && !one_in(200))
			to[n++] = 2;
		to[n++] = from[i];
	}
	return n;
}

/* A payload of some variables, mostly a good one. */
static size_t fill_payload(uint8_t *payload)
{
	uint8_t text[200];
	size_t n = 0, count = one_in(12) ? 60 + below(8) : below(8);

	payload[n++] = (uint8_t)(2 * below(2));
	if (one_in(20))
		return fill(payload, below(200));
	for (size_t i = 0; i < count && n < 1200; i++) {
		payload[n++] = (uint8_t)(3 * below(2));
		n += put_escaped(payload + n, text, fill(text, one_in(3)));
		payload[n++] = (uint8_t)(one_in(60) ? 'A' : 'A' + i % 64);
		if (one_in(8))
			continue;
		payload[n++] = 1;
		n += put_escaped(payload + n, text, fill(text, below(one_in(12) ? sizeof text : 8)));
		if (one_in(200))
			payload[n++] = 1;
	}
	return one_in(2) ? n : disturb(payload, n);
}

/* The variables that a payload says; with too little room it is refused by 4. */
static tv_payload_t read_payload(const uint8_t *payload, size_t length, struct variables *v, size_t bytes_room, size_t numbers_room_length)
{
	struct slice s = give(0, payload, length);
	uint8_t *bytes = lend(&out_room, bytes_room);
	size_t *numbers = (size_t *)(void *)lend(&numbers_room, numbers_room_length * sizeof(size_t));
	tv_payload_t p = tv_env_read(s.bytes, s.length, bytes, bytes_room, numbers, numbers_room_length);

	given_as_were();
	only_front(&out_room, p.bytes);
	only_front(&numbers_room, TV_ENV_NUMBERS * p.variables * sizeof(size_t));
	if (!counted(ENV_READ, p.refusal)) {
		CHECK(!p.first && !p.variables && !p.bytes);
		return p;
	}
	v->first = p.first;
	v->length = p.bytes;
	v->count = p.variables;
	memcpy(v->bytes, front(&out_room), p.bytes);
	memcpy(v->numbers, front(&numbers_room), TV_ENV_NUMBERS * p.variables * sizeof(size_t));
	return p;
}

static tv_written_t write_payload(const struct variables *v, size_t room)
{
	struct slice bytes = give(0, v->bytes, v->length), numbers = give(1, v->numbers, TV_ENV_NUMBERS * v->count * sizeof(size_t));
	uint8_t *out = lend(&out_room, room);
	tv_written_t w = tv_env_write(v->first, bytes.bytes, bytes.length, (const size_t *)(const void *)numbers.bytes,
			TV_ENV_NUMBERS * v->count, out, room);

	written(ENV_WRITE, w);
	return w;
}

/* Both hold the same kinds, names and values, the same ones of them undefined. */
static void same_variables(const struct variables *a, const struct variables *b)
{
	CHECK(a->first == b->first && a->count == b->count);
	for (size_t i = 0; i < a->count; i++) {
		const size_t *x = a->numbers + TV_ENV_NUMBERS * i, *y = b->numbers + TV_ENV_NUMBERS * i;
		CHECK(x[TV_ENV_KIND] == y[TV_ENV_KIND]);
		CHECK((x[TV_ENV_MARK] == TV_ENV_DEFINED) == (y[TV_ENV_MARK] == TV_ENV_DEFINED));
		CHECK(x[TV_ENV_NAME_LENGTH] == y[TV_ENV_NAME_LENGTH] && x[TV_ENV_VALUE_LENGTH] == y[TV_ENV_VALUE_LENGTH]);
		CHECK(!memcmp(a->bytes + x[TV_ENV_NAME_AT], b->bytes + y[TV_ENV_NAME_AT], x[TV_ENV_NAME_LENGTH]));
		CHECK(!memcmp(a->bytes + x[TV_ENV_VALUE_AT], b->bytes + y[TV_ENV_VALUE_AT], x[TV_ENV_VALUE_LENGTH]));
	}
}

static tv_value_t value_of(const struct variables *v, size_t kind, const uint8_t *name, size_t name_length)
{
	struct slice bytes = give(0, v->bytes, v->length), numbers = give(1, v->numbers, TV_ENV_NUMBERS * v->count * sizeof(size_t));
	struct slice named = give(2, name, name_length);
	tv_value_t value = tv_env_value(bytes.bytes, bytes.length, (const size_t *)(const void *)numbers.bytes, TV_ENV_NUMBERS * v->count, kind,
			named.bytes, named.length);

	given_as_were();
	counted(ENV_VALUE, 0);
	CHECK(value.present <= 1 && (value.present || (!value.at && !value.length)));
	absent += !value.present;
	return value;
}

/* One of the variables of a payload that was read is found where its record says, unless it is undefined. */
static void try_value(const struct variables *v)
{
	const size_t *r = v->numbers + TV_ENV_NUMBERS * below(v->count);
	tv_value_t value = value_of(v, r[TV_ENV_KIND], v->bytes + r[TV_ENV_NAME_AT], r[TV_ENV_NAME_LENGTH]);

	CHECK(r[TV_ENV_MARK] == TV_ENV_DEFINED || r[TV_ENV_MARK] == TV_ENV_UNDEFINED);
	CHECK(r[TV_ENV_VALUE_AT] == r[TV_ENV_NAME_AT] + r[TV_ENV_NAME_LENGTH]);
	if (r[TV_ENV_MARK]) {
		CHECK(!value.present && !r[TV_ENV_VALUE_LENGTH]);
		undefined++;
	} else {
		CHECK(value.present && value.at == r[TV_ENV_VALUE_AT] && value.length == r[TV_ENV_VALUE_LENGTH]);
		CHECK(value.at + value.length <= v->length);
	}
	CHECK(!value_of(v, TV_ENV_VAR, (const uint8_t *)"a name that nobody has", 22).present);
	CHECK(!value_of(v, 1, v->bytes + r[TV_ENV_NAME_AT], r[TV_ENV_NAME_LENGTH]).present);
}

static void try_env_read(void)
{
	static struct variables v, again;
	uint8_t payload[LONGEST];
	size_t length = fill_payload(payload), bytes_room, numbers_room_length;
	tv_payload_t p = read_payload(payload, length, &v, 1024, TV_ENV_NUMBERS * TV_ENV_VARIABLES), q;

	CHECK(p.refusal != 4);
	bytes_room = room_near(p.bytes);
	numbers_room_length = room_near(TV_ENV_NUMBERS * p.variables);
	q = read_payload(payload, length, &again, bytes_room, numbers_room_length);
	if (p.refusal || bytes_room < p.bytes || numbers_room_length < TV_ENV_NUMBERS * p.variables) {
		CHECK(q.refusal == (p.refusal ? p.refusal : 4));
		return;
	}
	same_variables(&v, &again);
	if (v.count)
		try_value(&v);
	tv_written_t w = write_payload(&v, 1024);
	CHECK(!w.refusal && w.length == length && !memcmp(payload, front(&out_room), length));
}

/* Records over random bytes, mostly good ones: the first two bytes of each name are its own. */
static void fill_variables(struct variables *v)
{
	v->first = (uint8_t)(one_in(30) ? any() : 2 * below(2));
	v->length = fill(v->bytes, one_in(12) ? 700 + below(400) : 140 + below(60));
	v->count = one_in(12) ? 60 + below(8) : below(8);
	for (size_t i = 0; i < v->count; i++) {
		size_t *r = v->numbers + TV_ENV_NUMBERS * i;
		v->bytes[2 * i] = 'A';
		v->bytes[2 * i + 1] = (uint8_t)('0' + i);
		r[TV_ENV_KIND] = one_in(200) ? any() : 3 * below(2);
		r[TV_ENV_NAME_AT] = 2 * (one_in(100) ? 0 : i);
		r[TV_ENV_NAME_LENGTH] = one_in(200) ? 0 : 2;
		r[TV_ENV_VALUE_LENGTH] = below(one_in(8) ? v->length : 12);
		r[TV_ENV_VALUE_AT] = one_in(200) ? any() : below(v->length - r[TV_ENV_VALUE_LENGTH] + 1);
		r[TV_ENV_MARK] = !one_in(6) ? TV_ENV_DEFINED : one_in(2) ? TV_ENV_UNDEFINED : any();
		if (r[TV_ENV_MARK] && !one_in(40))
			r[TV_ENV_VALUE_LENGTH] = 0;
	}
}

/* One of the records is undefined and has bytes of a value. */
static bool contradicts(const struct variables *v)
{
	for (size_t i = 0; i < v->count; i++)
		if (v->numbers[TV_ENV_NUMBERS * i + TV_ENV_MARK] && v->numbers[TV_ENV_NUMBERS * i + TV_ENV_VALUE_LENGTH])
			return true;
	return false;
}

static void try_env_write(void)
{
	static struct variables v, again;
	uint8_t payload[1024];
	tv_written_t w, second;

	fill_variables(&v);
	w = write_payload(&v, 1024);
	CHECK(w.refusal != 4);
	CHECK(!contradicts(&v) || w.refusal == 27 || w.refusal == 20);
	if (w.refusal)
		return;
	memcpy(payload, front(&out_room), w.length);
	CHECK(!read_payload(payload, w.length, &again, 1024, TV_ENV_NUMBERS * TV_ENV_VARIABLES).refusal);
	same_variables(&v, &again);
	size_t room = room_near(w.length);
	second = write_payload(&v, room);
	CHECK(second.refusal == (room < w.length ? 4 : 0));
}

/* Tokens, profiles and sign-on. */

/* A name and a password with what they give. */
struct user {
	uint8_t name[16], password[160], record[TV_RECORD_ROOM];
	size_t name_length, password_length, record_length;
	bool enabled, des_allowed;
};

static uint64_t number_of(const uint8_t *bytes)
{
	uint64_t n = 0;

	for (size_t i = 0; i < 8; i++)
		n = n << 8 | bytes[i];
	return n;
}

static uint8_t raised(uint8_t b)
{
	return b >= 'a' && b <= 'z' ? (uint8_t)(b - 32) : b;
}

static tv_written_t make_record(struct user *u, size_t room)
{
	struct slice name = give(0, u->name, u->name_length), password = give(1, u->password, u->password_length);
	uint8_t *out = lend(&out_room, room);
	tv_written_t w = tv_make_record(name.bytes, name.length, password.bytes, password.length, u->enabled, u->des_allowed, out, room);

	if (written(MAKE_RECORD, w)) {
		u->record_length = w.length;
		memcpy(u->record, out, w.length);
	}
	return w;
}

static tv_written_t make_user(struct user *u)
{
	u->name_length = fill_name(u->name, 10);
	u->password_length = fill_password(u->password);
	u->enabled = !one_in(6);
	u->des_allowed = !one_in(4);
	return make_record(u, TV_RECORD_ROOM);
}

static tv_block_t des_token(const struct user *u)
{
	struct slice name = give(0, u->name, u->name_length), password = give(1, u->password, u->password_length);
	tv_block_t b = tv_des_token(name.bytes, name.length, password.bytes, password.length);

	given_as_were();
	CHECK(!b.refusal || !b.value);
	counted(DES_TOKEN, b.refusal);
	return b;
}

static tv_written_t sha_token(const struct user *u, size_t room)
{
	struct slice name = give(0, u->name, u->name_length), password = give(1, u->password, u->password_length);
	tv_written_t w = tv_sha_token(name.bytes, name.length, password.bytes, password.length, lend(&out_room, room), room);

	written(SHA_TOKEN, w);
	return w;
}

static tv_block_t des_substitute(uint64_t token, const struct user *u, uint64_t server_seed, uint64_t client_seed)
{
	struct slice name = give(0, u->name, u->name_length);
	tv_block_t b = tv_des_substitute(token, name.bytes, name.length, server_seed, client_seed);

	given_as_were();
	CHECK(!b.refusal || !b.value);
	counted(DES_SUBSTITUTE, b.refusal);
	return b;
}

static tv_written_t sha_substitute(const uint8_t *token, size_t length, const struct user *u, uint64_t server_seed, uint64_t client_seed, size_t room)
{
	struct slice stored = give(0, token, length), name = give(1, u->name, u->name_length);
	tv_written_t w = tv_sha_substitute(stored.bytes, stored.length, name.bytes, name.length, server_seed, client_seed, lend(&out_room, room), room);

	written(SHA_SUBSTITUTE, w);
	return w;
}

/* A record has the tokens that the token calls give. */
static void try_tokens(void)
{
	struct user u;
	uint8_t token[24];
	tv_written_t made = make_user(&u), w;
	tv_block_t b = des_token(&u);
	size_t room = room_near(TV_SHA_LENGTH), length = one_in(10) ? below(sizeof token) : TV_SHA_LENGTH;

	w = sha_token(&u, TV_SHA_LENGTH);
	CHECK(w.refusal == made.refusal);
	if (!made.refusal) {
		const uint8_t *tokens = u.record + 4 + u.name_length;
		CHECK(made.length == 32 + u.name_length && u.record[3] == u.name_length);
		for (size_t i = 0; i < u.name_length; i++)
			CHECK(u.record[4 + i] == raised(u.name[i]));
		CHECK(u.record[2] == u.enabled + 2 * (u.des_allowed && !b.refusal));
		CHECK(number_of(tokens) == b.value && !memcmp(tokens + 8, front(&out_room), TV_SHA_LENGTH));
		CHECK(make_record(&u, below(made.length)).refusal == 4);
		CHECK(sha_token(&u, room).refusal == (room < TV_SHA_LENGTH ? 4 : 0));
	} else {
		CHECK(made.refusal == 33 ? b.refusal == 33 : b.refusal == 34);
	}
	fill(token, sizeof token);
	w = sha_substitute(token, length, &u, any(), any(), room);
	CHECK(w.refusal == (length != TV_SHA_LENGTH ? 31 : made.refusal == 33 ? 33 : room < TV_SHA_LENGTH ? 4 : 0));
	CHECK(des_substitute(any(), &u, any(), any()).refusal == (made.refusal == 33 ? 33 : 0));
}

#define USERS 6

struct profiles {
	struct user users[USERS];
	size_t count, length, at[USERS];
	bool good;
	uint8_t table[1 + USERS * TV_RECORD_ROOM + 1];
};

static int in_order(const void *a, const void *b)
{
	const struct user *x = a, *y = b;
	size_t shorter = x->name_length < y->name_length ? x->name_length : y->name_length;
	int order = memcmp(x->record + 4, y->record + 4, shorter);

	return order ? order : (int)x->name_length - (int)y->name_length;
}

/* A table of made records, mostly a good one. */
static void fill_table(struct profiles *p)
{
	size_t n = 0;

	p->count = below(USERS + 1);
	for (size_t i = 0; i < p->count; i++)
		while (make_user(&p->users[i]).refusal)
			;
	if (!one_in(8))
		qsort(p->users, p->count, sizeof *p->users, in_order);
	p->good = true;
	p->table[n++] = TV_TABLE_VERSION;
	for (size_t i = 0; i < p->count; i++) {
		p->good = p->good && (!i || in_order(&p->users[i - 1], &p->users[i]) < 0);
		p->at[i] = n;
		memcpy(p->table + n, p->users[i].record, p->users[i].record_length);
		n += p->users[i].record_length;
	}
	p->length = n;
	if (one_in(4)) {
		p->good = false;
		p->length = one_in(20) ? fill(p->table, below(50)) : disturb(p->table, n);
	}
}

static tv_found_t find(const struct profiles *p, const uint8_t *name, size_t length)
{
	struct slice table = give(0, p->table, p->length), named = give(1, name, length);
	tv_found_t f = tv_table_find(table.bytes, table.length, named.bytes, named.length);

	given_as_were();
	counted(TABLE_FIND, f.refusal);
	CHECK(f.present <= !f.refusal && f.enabled <= f.present && f.des_allowed <= f.present && (f.present || !f.at));
	return f;
}

static void try_table(void)
{
	static struct profiles p;
	struct slice table;
	tv_table_t t;

	fill_table(&p);
	table = give(0, p.table, p.length);
	t = tv_table_check(table.bytes, table.length);
	given_as_were();
	counted(TABLE_CHECK, t.refusal);
	CHECK(t.refusal ? !t.profiles : t.profiles <= p.count + 1);
	CHECK(find(&p, (const uint8_t *)"NOBODY-AT-ALL", below(14)).refusal == t.refusal);
	if (!p.good)
		return;
	CHECK(!t.refusal && t.profiles == p.count);
	for (size_t i = 0; i < p.count; i++) {
		const struct user *u = &p.users[i];
		tv_found_t f = find(&p, u->name, u->name_length);
		CHECK(f.present && f.at == p.at[i] && f.enabled == u->enabled && f.des_allowed == (u->record[2] >> 1));
	}
}

static void put_variable(struct variables *v, size_t kind, const char *name, const uint8_t *value, size_t length)
{
	size_t *r = v->numbers + TV_ENV_NUMBERS * v->count++;

	r[TV_ENV_KIND] = kind;
	r[TV_ENV_NAME_AT] = v->length;
	r[TV_ENV_NAME_LENGTH] = strlen(name);
	memcpy(v->bytes + v->length, name, strlen(name));
	v->length += strlen(name);
	r[TV_ENV_VALUE_AT] = v->length;
	r[TV_ENV_VALUE_LENGTH] = length;
	r[TV_ENV_MARK] = TV_ENV_DEFINED;
	memcpy(v->bytes + v->length, value, length);
	v->length += length;
}

/* A variable that is there or not; what is not there is absent or undefined. */
static void say_variable(struct variables *v, bool there, size_t kind, const char *name, const uint8_t *value, size_t length)
{
	if (!there && one_in(2))
		return;
	put_variable(v, kind, name, value, there ? length : 0);
	if (!there)
		v->numbers[TV_ENV_NUMBERS * (v->count - 1) + TV_ENV_MARK] = TV_ENV_UNDEFINED;
}

static uint64_t signed_on[TV_REASON_GRANTED + 1];

/* Verdict and reason agree, refusals included: the reason's tens are the verdict's number. */
static uint8_t reason_on(const uint8_t *seed, size_t seed_length, const struct profiles *p, const uint8_t *payload, size_t length)
{
	struct slice s = give(0, seed, seed_length), table = give(1, p->table, p->length), said = give(2, payload, length);
	tv_judged_t j = tv_verdict(s.bytes, s.length, table.bytes, table.length, said.bytes, said.length);
	tv_explained_t e = tv_explain(s.bytes, s.length, table.bytes, table.length, said.bytes, said.length);

	given_as_were();
	CHECK(j.verdict <= TV_VERDICT_GRANT && counted(VERDICT, j.refusal) == (j.verdict != 0));
	CHECK(counted(EXPLAIN, e.refusal) == (e.reason != 0));
	CHECK(e.refusal == j.refusal && e.reason / 10 == j.verdict);
	CHECK(seed_length == TV_SEED_LENGTH || j.refusal == 35);
	return e.reason;
}

/* What a client offers for its password under two seeds: in clear, by DES or by SHA-1. */
static size_t offer(const struct user *u, size_t way, const uint8_t *server_seed, const uint8_t *client_seed, uint8_t *offered)
{
	const uint8_t *tokens = u->record + 4 + u->name_length;

	if (way == 0) {
		memcpy(offered, u->password, u->password_length);
		return u->password_length;
	}
	if (way == 1) {
		uint64_t value = des_substitute(number_of(tokens), u, number_of(server_seed), number_of(client_seed)).value;
		for (size_t i = 0; i < 8; i++)
			offered[i] = (uint8_t)(value >> (56 - 8 * i));
		return 8;
	}
	CHECK(!sha_substitute(tokens + 8, TV_SHA_LENGTH, u, number_of(server_seed), number_of(client_seed), TV_SHA_LENGTH).refusal);
	memcpy(offered, front(&out_room), TV_SHA_LENGTH);
	return TV_SHA_LENGTH;
}

static uint8_t ebcdic(uint8_t b)
{
	static const char others[] = "$#@_";
	static const uint8_t codes[] = {0x5B, 0x7B, 0x7C, 0x6D};

	b = raised(b);
	if (b >= '0' && b <= '9')
		return (uint8_t)(0xF0 + b - '0');
	if (b >= 'A' && b <= 'I')
		return (uint8_t)(0xC1 + b - 'A');
	if (b >= 'J' && b <= 'R')
		return (uint8_t)(0xD1 + b - 'J');
	if (b >= 'S' && b <= 'Z')
		return (uint8_t)(0xE2 + b - 'S');
	return b && strchr(others, b) ? codes[strchr(others, b) - others] : 0;
}

static bool is_name(const uint8_t *name, size_t length, size_t limit)
{
	for (size_t i = 0; i < length; i++)
		if (!ebcdic(name[i]))
			return false;
	return length && length <= limit;
}

/* What a client says of itself, and whether what it offers is right under its seed. */
struct said {
	bool has_user, has_seed, has_offer, right;
	uint8_t user[16], seed[16], offered[160];
	size_t user_length, seed_length, offer_length;
};

static bool is_clear(const struct said *s)
{
	static const uint8_t zeros[TV_SEED_LENGTH];

	return !s->seed_length || (s->seed_length == TV_SEED_LENGTH && !memcmp(s->seed, zeros, sizeof zeros));
}

/* One thing of it changed, or none. */
static void spoil(struct said *s)
{
	switch (below(12)) {
	case 0: s->has_user = false; break;
	case 1: s->user_length = one_in(2) ? 0 : 11; break;
	case 2:
		s->user_length = 6;
		memcpy(s->user, "NOBODY", 6);
		break;
	case 3: s->has_seed = false; break;
	case 4: s->has_offer = false; break;
	case 5: s->has_seed = s->has_offer = false; break;
	case 6: s->seed_length = below(sizeof s->seed + 1); break;
	case 7: s->offer_length = below(sizeof s->offered + 1); break;
	case 8: s->offered[s->offer_length ? below(s->offer_length) : 0] ^= (uint8_t)(1 << below(8)); break;
	default: break;
	}
}

/* In clear, by DES or by SHA-1. */
static void say_of(struct said *s, const struct user *u, const uint8_t *server_seed)
{
	size_t way = below(3), length;
	uint8_t offered[sizeof s->offered];

	*s = (struct said){.has_user = true, .has_seed = true, .has_offer = true, .user_length = u->name_length};
	memcpy(s->user, u->name, u->name_length);
	fill(s->seed, sizeof s->seed);
	s->seed[0] |= 1;
	fill(s->offered, sizeof s->offered);
	length = offer(u, way, server_seed, s->seed, offered);
	memcpy(s->offered, offered, length);
	s->offer_length = length;
	s->seed_length = way || one_in(2) ? TV_SEED_LENGTH : 0;
	if (!way)
		memset(s->seed, 0, TV_SEED_LENGTH);
	spoil(s);
	s->right = s->offer_length == length && !memcmp(s->offered, offered, length)
		&& (way ? s->seed_length == TV_SEED_LENGTH : is_clear(s));
}

/* The first reason that holds, in the order of change request No. 1; u is the user of that name, if there is one. */
static uint8_t reason_of(const struct said *s, const struct user *u)
{
	bool printable = s->offer_length && s->offer_length <= TV_PASSWORD_LIMIT;

	for (size_t i = 0; i < s->offer_length; i++)
		printable = printable && s->offered[i] >= 0x20 && s->offered[i] <= 0x7E;
	return !s->has_seed && !s->has_offer ? TV_REASON_PANEL_ASKED_FOR
		: !s->has_user ? TV_REASON_NO_USER
		: !is_name(s->user, s->user_length, TV_NAME_LIMIT) ? TV_REASON_BAD_NAME
		: !u ? TV_REASON_NOT_IN_THE_TABLE
		: !u->enabled ? TV_REASON_DISABLED
		: !s->has_seed ? TV_REASON_SEED_VARIABLE_MISSING
		: !s->has_offer ? TV_REASON_SUBSTITUTE_MISSING
		: s->seed_length && s->seed_length != TV_SEED_LENGTH ? TV_REASON_SEED_LENGTH
		: !is_clear(s) && s->offer_length != 8 && s->offer_length != TV_SHA_LENGTH ? TV_REASON_SUBSTITUTE_LENGTH
		: !is_clear(s) && s->offer_length == 8 && !(u->record[2] >> 1) ? TV_REASON_DES_NOT_ALLOWED
		: is_clear(s) && !printable ? TV_REASON_CLEAR_PASSWORD_MALFORMED
		: !s->right ? TV_REASON_TOKEN_DIFFERS : TV_REASON_GRANTED;
}

/* A user of the table signs on. */
static void try_sign_on(const struct profiles *p, const uint8_t *server_seed)
{
	static struct variables v;
	static struct said s;
	const struct user *u = &p->users[below(p->count)];
	uint8_t payload[1024], reason;
	tv_written_t w;

	say_of(&s, u, server_seed);
	v = (struct variables){.first = TV_ENV_IS};
	say_variable(&v, s.has_user, TV_ENV_VAR, "USER", s.user, s.user_length);
	say_variable(&v, s.has_seed, TV_ENV_USERVAR, "IBMRSEED", s.seed, s.seed_length);
	say_variable(&v, s.has_offer, TV_ENV_USERVAR, "IBMSUBSPW", s.offered, s.offer_length);
	w = write_payload(&v, 1024);
	CHECK(!w.refusal);
	memcpy(payload, front(&out_room), w.length);
	reason = reason_of(&s, s.user_length == 6 && !memcmp(s.user, "NOBODY", 6) ? NULL : u);
	CHECK(reason_on(server_seed, TV_SEED_LENGTH, p, payload, w.length) == reason);
	signed_on[reason]++;
}

static size_t put_ebcdic(uint8_t *out, const uint8_t *text, size_t length, size_t width)
{
	for (size_t i = 0; i < width; i++)
		out[i] = i < length ? ebcdic(text[i]) : 0x40;
	return width;
}

/* RFC 4777, figures 1 and 2. */
static void response_by(uint8_t *record, bool fault, uint8_t verdict, const uint8_t *system, size_t system_length, const uint8_t *device,
		size_t device_length)
{
	static const uint8_t fixed[] = {0x00, 0x49, 0x12, 0xA0, 0x90, 0x00, 0x05, 0x60, 0x06, 0x00, 0x20, 0xC0, 0x00, 0x3D, 0x00, 0x00};
	static const char *const codes[] = {"0004", "I902", "0002", "0003", "0004", "I902"};
	const char *code = fault ? "8902" : codes[verdict <= TV_VERDICT_GRANT ? verdict : 0];
	size_t n = sizeof fixed;

	memset(record, 0, TV_RESPONSE_LENGTH);
	memcpy(record, fixed, sizeof fixed);
	if (code[0] != 'I') {
		record[10] = 0x82;
		record[11] = 0x00;
	}
	n += put_ebcdic(record + n, (const uint8_t *)code, 4, 4);
	n += put_ebcdic(record + n, system, system_length, TV_SYSTEM_NAME_LIMIT);
	put_ebcdic(record + n, device, device_length, TV_NAME_LIMIT);
}

static void try_response(void)
{
	uint8_t system[16], device[16], expected[TV_RESPONSE_LENGTH], verdict = (uint8_t)(one_in(20) ? any() : below(8));
	size_t system_length = fill_name(system, 8), device_length = fill_name(device, 10), room = room_near(TV_RESPONSE_LENGTH);
	bool fault = one_in(4), good = is_name(system, system_length, TV_SYSTEM_NAME_LIMIT) && is_name(device, device_length, TV_NAME_LIMIT);
	struct slice s = give(0, system, system_length), d = give(1, device, device_length);
	uint8_t *out = lend(&out_room, room);
	tv_written_t w = tv_response(fault, verdict, s.bytes, s.length, d.bytes, d.length, out, room);

	CHECK(w.refusal == (!good ? 36 : room < TV_RESPONSE_LENGTH ? 4 : 0));
	if (!written(RESPONSE, w))
		return;
	response_by(expected, fault, verdict, system, system_length, device, device_length);
	CHECK(w.length == TV_RESPONSE_LENGTH && !memcmp(out, expected, sizeof expected));
}

static void try_verdict(void)
{
	static struct profiles p;
	uint8_t seed[16], payload[LONGEST];
	size_t length = fill_payload(payload);

	fill_table(&p);
	fill(seed, sizeof seed);
	reason_on(seed, one_in(20) ? below(16) : TV_SEED_LENGTH, &p, payload, length);
	if (p.good && p.count)
		try_sign_on(&p, seed);
	if (p.good)
		CHECK(reason_on(seed, TV_SEED_LENGTH, &p, (const uint8_t *)"", 1) == TV_REASON_PANEL_ASKED_FOR);
	try_response();
}

/* Printer frames and the ledger. */

static size_t fill_frame(uint8_t *frame)
{
	static const uint8_t flows[] = {0x01, 0x11};
	size_t header = 4 + below(12), length = 6 + header + below(30);

	fill(frame, length);
	frame[0] = 0;
	frame[1] = (uint8_t)length;
	frame[2] = 0x12;
	frame[3] = 0xA0;
	frame[4] = flows[below(2)];
	frame[5] = (uint8_t)(one_in(6) ? 2 : 1);
	frame[6] = (uint8_t)header;
	frame[7] = (uint8_t)(any() & 0xF8);
	frame[8] = 0;
	frame[9] = (uint8_t)(1 + one_in(3));
	if (one_in(6))
		frame[below(10)] = (uint8_t)any();
	return one_in(3) ? disturb(frame, length) : one_in(50) ? fill(frame, below(60)) : length;
}

static tv_frame_t read_frame(const uint8_t *frame, size_t length)
{
	struct slice s = give(0, frame, length);
	tv_frame_t f = tv_read_frame(s.bytes, s.length);

	given_as_were();
	if (counted(READ_FRAME, f.refusal)) {
		CHECK(f.diagnostics_at == 10 && f.data_at == f.diagnostics_at + f.diagnostics_length && f.data_at + f.data_length == length);
		CHECK(f.direction == frame[5] && f.operation == frame[9] && f.diagnostics_included == frame[4] >> 4);
		CHECK(frame[7] == (f.error << 7 | f.intervention_required << 6 | f.ready << 5 | f.first_of_chain << 4 | f.last_of_chain << 3));
	} else {
		CHECK(!f.direction && !f.operation && !f.data_at && !f.data_length && !f.diagnostics_at && !f.diagnostics_length);
	}
	return f;
}

static tv_ledger_t take(tv_ledger_t ledger)
{
	uint8_t frame[80], held = ledger.held == TV_LEDGER_HOLDING;
	size_t length = fill_frame(frame);
	tv_frame_t f = read_frame(frame, length);
	struct slice s = give(0, frame, length);
	tv_taken_t t = tv_ledger_take(ledger, s.bytes, s.length);

	given_as_were();
	if (!counted(LEDGER_TAKE, t.refusal)) {
		CHECK(!t.receipt && t.ledger.held == ledger.held);
		CHECK(t.refusal == (f.refusal ? f.refusal : f.direction == TV_INBOUND ? 52 : 50));
	} else if (f.operation == TV_OPERATION_PRINT) {
		CHECK(t.receipt == TV_RECEIPT_HELD && t.ledger.held == TV_LEDGER_HOLDING && !held);
	} else {
		CHECK(t.receipt == (held ? TV_RECEIPT_CLEARED : TV_RECEIPT_NOTHING_TO_CLEAR) && t.ledger.held == TV_LEDGER_IDLE);
	}
	return t.ledger;
}

static tv_ledger_t complete(tv_ledger_t ledger)
{
	size_t room = room_near(TV_COMPLETE_LENGTH);
	uint8_t *out = lend(&out_room, room), held = ledger.held == TV_LEDGER_HOLDING;
	tv_completed_t c = tv_ledger_complete(ledger, out, room);

	only_front(&out_room, c.length);
	if (!counted(LEDGER_COMPLETE, c.refusal)) {
		CHECK(!c.length && c.ledger.held == ledger.held && c.refusal == (held ? 4 : 51));
		return c.ledger;
	}
	uint8_t frame[TV_COMPLETE_LENGTH];
	CHECK(held && c.ledger.held == TV_LEDGER_IDLE && c.length == TV_COMPLETE_LENGTH);
	memcpy(frame, out, sizeof frame);
	tv_frame_t f = read_frame(frame, sizeof frame);
	CHECK(!f.refusal && f.direction == TV_INBOUND && f.operation == TV_OPERATION_PRINT);
	return c.ledger;
}

static void try_print(void)
{
	tv_ledger_t ledger = tv_ledger_fresh();

	counted(LEDGER_FRESH, 0);
	CHECK(ledger.held == TV_LEDGER_IDLE);
	if (one_in(8))
		ledger.held = (uint8_t)any();
	for (size_t i = 1 + below(8); i; i--)
		ledger = one_in(3) ? complete(ledger) : take(ledger);
}

static void try_one(void)
{
	static void (*const tries[])(void) = {try_stream, try_fragments, try_write, try_list, try_sides, try_env_read, try_env_write, try_tokens, try_table,
			try_verdict, try_print};

	tries[below(sizeof tries / sizeof *tries)]();
}

static void tell_counts(void)
{
	static const uint8_t reasons[] = {TV_REASON_PANEL_ASKED_FOR, TV_REASON_NO_USER, TV_REASON_BAD_NAME, TV_REASON_NOT_IN_THE_TABLE,
			TV_REASON_DISABLED, TV_REASON_SEED_VARIABLE_MISSING, TV_REASON_SUBSTITUTE_MISSING, TV_REASON_SEED_LENGTH,
			TV_REASON_SUBSTITUTE_LENGTH, TV_REASON_DES_NOT_ALLOWED, TV_REASON_CLEAR_PASSWORD_MALFORMED, TV_REASON_TOKEN_DIFFERS,
			TV_REASON_GRANTED};

	for (size_t i = 0; i < HOW_MANY; i++) {
		const uint8_t *r = promises[i].refusals;
		printf("%-20s answered %6llu", promises[i].name, (unsigned long long)counts[i][0]);
		for (; *r; r++)
			printf(", %d: %llu", *r, (unsigned long long)counts[i][*r]);
		putchar('\n');
	}
	for (size_t i = 0; i < HOW_MANY; i++) {
		CHECK(counts[i][0]);
		for (const uint8_t *r = promises[i].refusals; *r; r++)
			CHECK(counts[i][*r]);
	}
	for (size_t i = 0; i < sizeof reasons; i++)
		CHECK(signed_on[reasons[i]]);
	CHECK(absent && absent < counts[ENV_VALUE][0]);
	CHECK(undefined);
}

/* fuzz [CALLS [SEED]] */
int main(int argc, char **argv)
{
	uint64_t wanted = argc > 1 ? strtoull(argv[1], NULL, 0) : CALLS;

	if (argc > 2)
		state = strtoull(argv[2], NULL, 0);
	printf("seed %#llx\n", (unsigned long long)state);
	make_arenas();
	while (calls < wanted)
		try_one();
	tell_counts();
	printf("%llu calls\n", (unsigned long long)calls);
	return 0;
}
