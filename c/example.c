/*
 * The start of a printer session over a socket pair, both ends in one process,
 * through tongvelvet.h alone. Each end reads its socket through a reader, in
 * fragments of as many bytes as the argument says, or of all that have come.
 * It prints the lines of the program run_printer_start: for each event who
 * sends it, the line that the listing has for it, and what it means to the end
 * that reads it.
 */
#include "tongvelvet.h"

#include <errno.h>
#include <stdio.h>
#include <stdlib.h>
#include <string.h>
#include <sys/socket.h>
#include <unistd.h>

#define ROOM 1024

/* One end: its socket, its options, what it has sent and what it has heard. */
struct end {
	const char *name;
	int socket;
	tv_sides_t sides;
	uint8_t sent[ROOM];
	size_t sent_length;
	/* the bytes that came last, and how many of them are taken */
	uint8_t fragment[ROOM];
	size_t fragment_length, taken;
	tv_reader_t reader;
	uint8_t kept[TV_PAYLOAD_LIMIT];
	/* the data of the record that is being read */
	uint8_t record[ROOM];
	size_t record_length;
	/* the payload that was read last */
	uint8_t payload[TV_PAYLOAD_LIMIT];
	size_t payload_length;
	/* option commands that are not answered yet, each a code and an option */
	uint8_t commands[16][2];
	size_t commands_length;
};

/* How many bytes a read takes at most. */
static size_t cut = ROOM;

static void die(const char *what, unsigned number)
{
	fflush(stdout);
	fprintf(stderr, "example: %s: %u\n", what, number);
	exit(1);
}

static const char *option_name(uint8_t option)
{
	switch (option) {
	case TV_OPTION_BINARY: return " BINARY";
	case TV_OPTION_SUPPRESS_GO_AHEAD: return " SUPPRESS-GO-AHEAD";
	case 6: return " TIMING-MARK";
	case TV_OPTION_TERMINAL_TYPE: return " TERMINAL-TYPE";
	case TV_OPTION_END_OF_RECORD: return " END-OF-RECORD";
	case TV_OPTION_NEW_ENVIRON: return " NEW-ENVIRON";
	default: return "";
	}
}

/* Says the event at a place of what an end has sent. */
static void say_event(const struct end *e, size_t at)
{
	char text[TV_LINE_ROOM];
	tv_event_t event = tv_look(e->sent, e->sent_length, at);
	tv_written_t line = tv_line(e->sent, e->sent_length, at, (uint8_t *)text, sizeof text);

	if (line.refusal || line.length == 0)
		die("line", line.refusal);
	printf("\n%s %.*s", e->name, (int)(line.length - 1), text);
	if (event.what == TV_DATA)
		printf(" a run of a record");
	else if (event.what == TV_COMMAND)
		printf(" its end");
	else
		printf("%s", option_name(event.option));
}

/* Sends what was put on an end's line from where it stood up to a place. */
static void send_up_to(struct end *e, size_t place)
{
	size_t at = e->sent_length, length = place - at;

	if (!length)
		return;
	if (write(e->socket, e->sent + at, length) != (ssize_t)length)
		die("socket", 0);
	e->sent_length = place;
	say_event(e, at);
}

/* Sends an event. */
static void send_event(struct end *e, uint8_t what, uint8_t code, uint8_t option,
		const void *payload, size_t length)
{
	size_t at = e->sent_length;
	tv_written_t w = tv_write(what, code, option, payload, length, e->sent + at, ROOM - at);

	if (w.refusal)
		die("write", w.refusal);
	send_up_to(e, at + w.length);
}

/* Reads from the socket: whether anything has come. */
static bool receive(struct end *e)
{
	ssize_t n = recv(e->socket, e->fragment, cut, MSG_DONTWAIT);

	if (n == 0 || (n < 0 && errno != EAGAIN))
		die("socket", 0);
	e->fragment_length = n < 0 ? 0 : (size_t)n;
	e->taken = 0;
	return n > 0;
}

/*
 * Takes what has come up to a subnegotiation, TV_SUBNEGOTIATION, or the end of
 * a record, TV_COMMAND; TV_END where neither has come yet. Option commands on
 * the way are noted, to be answered.
 */
static uint8_t hear(struct end *e)
{
	uint8_t room[TV_READER_ROOM];

	while (e->taken < e->fragment_length || receive(e)) {
		tv_fed_t fed = tv_reader_feed(e->reader, e->kept, e->fragment + e->taken, e->fragment_length - e->taken,
				room, sizeof room);

		if (fed.number)
			die("line", fed.number);
		e->reader = fed.reader;
		e->taken += fed.taken;
		if (fed.length > ROOM - e->record_length)
			die("record", 0);
		memcpy(e->record + e->record_length, room, fed.length);
		e->record_length += fed.length;
		if (fed.what == TV_NEGOTIATION) {
			if (e->commands_length == sizeof e->commands / sizeof *e->commands)
				die("option commands", 0);
			e->commands[e->commands_length][0] = fed.code;
			e->commands[e->commands_length++][1] = fed.option;
		} else if (fed.what == TV_SUBNEGOTIATION) {
			memcpy(e->payload, room + fed.length, fed.payload);
			e->payload_length = fed.payload;
			return TV_SUBNEGOTIATION;
		} else if (fed.what == TV_COMMAND && fed.code == TV_EOR) {
			return TV_COMMAND;
		}
	}
	return TV_END;
}

/* The sides after a call, and the command that it put on the line, if any. */
static void step(struct end *e, tv_sent_t sent)
{
	if (sent.number && sent.number != TV_NOTE_OFF_ANSWERED_BY_ON)
		die("option", sent.number);
	e->sides = sent.sides;
	send_up_to(e, sent.place);
}

/* Answers the option commands that were noted. */
static void answer(struct end *e)
{
	for (size_t i = 0; i < e->commands_length; i++)
		step(e, tv_option_receive(e->sides, e->commands[i][0], e->commands[i][1], true, e->sent, ROOM, e->sent_length));
	e->commands_length = 0;
}

static void ask(struct end *e, bool ours, uint8_t option)
{
	step(e, tv_option_request(e->sides, ours, option, true, e->sent, ROOM, e->sent_length));
}

static void negotiate(struct end *host, struct end *printer)
{
	tv_sides_t s;

	ask(host, false, TV_OPTION_NEW_ENVIRON);
	ask(host, false, TV_OPTION_TERMINAL_TYPE);
	ask(host, false, TV_OPTION_END_OF_RECORD);
	ask(host, true, TV_OPTION_END_OF_RECORD);
	ask(host, false, TV_OPTION_BINARY);
	ask(host, true, TV_OPTION_BINARY);
	if (hear(printer) != TV_END)
		die("options", 0);
	answer(printer);
	if (hear(host) != TV_END)
		die("options", 0);
	answer(host);
	s = host->sides;
	if (s.environ.other != TV_SIDE_ON || s.terminal.other != TV_SIDE_ON
			|| s.records.other != TV_SIDE_ON || s.records.ours != TV_SIDE_ON
			|| s.binary.other != TV_SIDE_ON || s.binary.ours != TV_SIDE_ON)
		die("options do not rest on", 0);
}

/* A seed is random: this one has every byte that needs an ESC, and a 255. */
static const uint8_t server_seed[TV_SEED_LENGTH] = {0x00, 0x4C, 0x01, 0x19, 0x02, 0xFF, 0x03, 0xB2};

#define CLIENT_SEED 0x08BEF662D851F4B1u

static uint64_t number_of(const uint8_t *bytes)
{
	uint64_t n = 0;

	for (int i = 0; i < 8; i++)
		n = n << 8 | bytes[i];
	return n;
}

static void put_number(uint8_t *out, uint64_t n)
{
	for (int i = 7; i >= 0; i--, n >>= 8)
		out[i] = (uint8_t)n;
}

/* The host asks for all variables, with its seed after IBMRSEED. */
static void ask_environment(struct end *host)
{
	uint8_t send[12 + 2 * TV_SEED_LENGTH] = {TV_ENV_SEND, TV_ENV_USERVAR, 'I', 'B', 'M', 'R', 'S', 'E', 'E', 'D'};
	size_t n = 10;

	for (size_t i = 0; i < TV_SEED_LENGTH; i++) {
		if (server_seed[i] <= TV_ENV_USERVAR)
			send[n++] = TV_ENV_ESC;
		send[n++] = server_seed[i];
	}
	send[n++] = TV_ENV_VAR;
	send[n++] = TV_ENV_USERVAR;
	send_event(host, TV_SUBNEGOTIATION, 0, TV_OPTION_NEW_ENVIRON, send, n);
	printf(": SEND");
}

/* The printer takes the seed from what it is asked. */
static uint64_t hear_seed(struct end *printer)
{
	const uint8_t *payload = printer->payload;
	uint8_t seed[TV_SEED_LENGTH];
	size_t at = 10;

	if (hear(printer) != TV_SUBNEGOTIATION || printer->payload_length < 10 || memcmp(payload + 2, "IBMRSEED", 8))
		die("seed", 0);
	for (size_t i = 0; i < TV_SEED_LENGTH; i++) {
		if (at < printer->payload_length && payload[at] == TV_ENV_ESC)
			at++;
		if (at >= printer->payload_length)
			die("seed", 0);
		seed[i] = payload[at++];
	}
	return number_of(seed);
}

/* The printer's variables, each a kind and the places of its name and value. */
static void tell_environment(struct end *printer, uint64_t seed)
{
	uint8_t bytes[] = "USER" "USER123" "IBMRSEED" "........" "IBMSUBSPW" "........" "DEVNAME" "PCPRINTER";
	const size_t places[] = {
		TV_ENV_VAR, 0, 4, 4, 7, TV_ENV_DEFINED,
		TV_ENV_USERVAR, 11, 8, 19, 8, TV_ENV_DEFINED,
		TV_ENV_USERVAR, 27, 9, 36, 8, TV_ENV_DEFINED,
		TV_ENV_USERVAR, 44, 7, 51, 9, TV_ENV_DEFINED,
	};
	uint8_t payload[TV_PAYLOAD_LIMIT];
	tv_block_t token = tv_des_token(bytes + 4, 7, (const uint8_t *)"ABCDEFG", 7);
	tv_block_t substitute = tv_des_substitute(token.value, bytes + 4, 7, seed, CLIENT_SEED);
	tv_written_t w;

	if (token.refusal || substitute.refusal)
		die("substitute", token.refusal + substitute.refusal);
	put_number(bytes + 19, CLIENT_SEED);
	put_number(bytes + 36, substitute.value);
	w = tv_env_write(TV_ENV_IS, bytes, sizeof bytes - 1, places, sizeof places / sizeof *places,
			payload, sizeof payload);
	if (w.refusal)
		die("environment", w.refusal);
	send_event(printer, TV_SUBNEGOTIATION, 0, TV_OPTION_NEW_ENVIRON, payload, w.length);
}

static const char *verdict_name(uint8_t verdict)
{
	static const char *const names[] = {"", "PANEL", "0002", "0003", "0004", "GRANT"};

	return verdict <= TV_VERDICT_GRANT ? names[verdict] : "";
}

static uint8_t sign_on(struct end *host, struct end *printer, const uint8_t *table, size_t table_length)
{
	tv_judged_t v;

	ask_environment(host);
	tell_environment(printer, hear_seed(printer));
	if (hear(host) != TV_SUBNEGOTIATION)
		die("payload", 0);
	v = tv_verdict(server_seed, sizeof server_seed, table, table_length, host->payload, host->payload_length);
	if (v.refusal)
		die("verdict", v.refusal);
	printf(": %s", verdict_name(v.verdict));
	/* for the operator's desk; the client is told the verdict, and no more */
	if (v.verdict != TV_VERDICT_GRANT)
		fprintf(stderr, "sign-on: reason %d (docs/REASONS.md)\n",
				tv_explain(server_seed, sizeof server_seed, table, table_length, host->payload, host->payload_length).reason);
	return v.verdict;
}

/* Reads a record: its length. Its data is the end's record until more is heard. */
static size_t read_record(struct end *e)
{
	size_t length;

	if (hear(e) != TV_COMMAND)
		die("record", 0);
	length = e->record_length;
	e->record_length = 0;
	return length;
}

static void send_record(struct end *e, const uint8_t *record, size_t length)
{
	send_event(e, TV_DATA, 0, 0, record, length);
	send_event(e, TV_COMMAND, TV_EOR, 0, NULL, 0);
}

static void respond(struct end *host, struct end *printer, uint8_t verdict)
{
	uint8_t record[TV_RESPONSE_LENGTH];
	tv_written_t w = tv_response(false, verdict, (const uint8_t *)"TARGET", 6,
			(const uint8_t *)"PCPRINTER", 9, record, sizeof record);

	if (w.refusal)
		die("response", w.refusal);
	send_record(host, record, w.length);
	if (read_record(printer) != TV_RESPONSE_LENGTH)
		die("response", 0);
	/* the code is EBCDIC: I902, or four digits */
	printf(": ");
	for (int i = 16; i < 20; i++)
		putchar(printer->record[i] == 0xC9 ? 'I' : printer->record[i] & 0x3F);
}

static void print_order(struct end *host, struct end *printer)
{
	static const uint8_t first[] = "\x00\x1E\x12\xA0\x01\x01\x04\x18\x00\x01" "STEP DOWN";
	static const uint8_t second[] = " 40 MW\xFF\r\n\f";
	uint8_t complete[TV_COMPLETE_LENGTH];
	size_t length;
	tv_taken_t taken;
	tv_completed_t completed;
	tv_frame_t frame;

	send_event(host, TV_DATA, 0, 0, first, sizeof first - 1);
	send_event(host, TV_NEGOTIATION, TV_DO, 6, NULL, 0);
	send_record(host, second, sizeof second);
	length = read_record(printer);
	taken = tv_ledger_take(tv_ledger_fresh(), printer->record, length);
	if (taken.refusal)
		die("ledger", taken.refusal);
	printf(taken.receipt == TV_RECEIPT_HELD ? ": held" : ": not held");

	/* the option command that came in the midst of the record */
	answer(printer);

	completed = tv_ledger_complete(taken.ledger, complete, sizeof complete);
	if (completed.refusal)
		die("completion", completed.refusal);
	if (hear(host) != TV_END)
		die("options", 0);
	answer(host);
	send_record(printer, complete, completed.length);
	length = read_record(host);
	frame = tv_read_frame(host->record, length);
	if (frame.refusal || frame.direction != TV_INBOUND || frame.operation != TV_OPERATION_PRINT)
		die("frame", frame.refusal);
	printf(": print complete");
}

int main(int argc, char **argv)
{
	struct end host = {.name = "host"}, printer = {.name = "printer"};
	uint8_t table[1 + TV_RECORD_ROOM] = {TV_TABLE_VERSION};
	tv_written_t made = tv_make_record((const uint8_t *)"USER123", 7, (const uint8_t *)"ABCDEFG", 7,
			true, true, table + 1, TV_RECORD_ROOM);
	int sockets[2];

	if (made.refusal)
		die("table", made.refusal);
	if (socketpair(AF_UNIX, SOCK_STREAM, 0, sockets))
		die("socket", 0);
	host.socket = sockets[0];
	printer.socket = sockets[1];
	host.sides = tv_sides_fresh();
	printer.sides = tv_sides_fresh();
	host.reader = tv_reader_fresh();
	printer.reader = tv_reader_fresh();
	if (argc > 1)
		cut = strtoul(argv[1], NULL, 10);
	if (cut < 1 || cut > ROOM)
		die("argument", 0);

	printf("A printer session");
	negotiate(&host, &printer);
	respond(&host, &printer, sign_on(&host, &printer, table, 1 + made.length));
	print_order(&host, &printer);
	printf("\n");
	if (tv_reader_close(host.reader) || tv_reader_close(printer.reader))
		die("line", tv_reader_close(host.reader));
	return 0;
}
