/*
 * Measures the stack that each call takes: a thread paints its own stack below its frame, makes the call, and looks how far down the paint is
 * gone. Each call is made over inputs that go deep, once before it is measured, so that the loader has bound the C library. Fails where a call
 * takes more than the header says.
 */
#include <pthread.h>
#include <stdio.h>
#include <stdlib.h>
#include <string.h>

#include "tongvelvet.h"

#define AREA (1024 * 1024)
#define PAINT 0xA5

static uint8_t line[4096], out[65536], bytes[1024], payload[1024], table[1 + TV_TABLE_PROFILES * TV_RECORD_ROOM], frame[300];
static size_t line_length, payload_length, table_length, numbers[TV_ENV_NUMBERS * TV_ENV_VARIABLES];
static tv_payload_t held;
static const uint8_t name[] = "USER123XYZ", password[] = "ABCDEFGHIJ", seed[TV_SEED_LENGTH] = "\x7d\x4c\x23\x19\xf2\x80\x04\xb2";
static const uint8_t more[] = {TV_ENV_VAR, 'Z', 'Z', 1, 'Z'};
static uint8_t phrase[128], token[TV_SHA_LENGTH];

static uint8_t kept[TV_PAYLOAD_LIMIT];

static void reader_fresh(void)
{
	tv_reader_fresh();
}

static void reader_reset(void)
{
	tv_reader_reset((tv_reader_t){TV_STAGE_CLOSING, 39, 5000});
}

static void reader_feed(void)
{
	for (size_t cut = 1; cut < 1500; cut = 3 * cut + 1) {
		tv_reader_t reader = tv_reader_fresh();
		for (size_t at = 0, n; at < line_length; at += n) {
			tv_fed_t f = tv_reader_feed(reader, kept, line + at, cut < line_length - at ? cut : line_length - at, out, sizeof out);
			n = f.taken ? f.taken : 1;
			reader = f.number ? tv_reader_reset(f.reader) : f.reader;
		}
	}
}

static void reader_close(void)
{
	for (unsigned stage = 0; stage < 8; stage++)
		tv_reader_close((tv_reader_t){(uint8_t)stage, 6, 0});
}

static void look(void)
{
	for (size_t at = 0; at < line_length; at++)
		tv_look(line, line_length, at);
}

static void read_event(void)
{
	for (size_t at = 0; at < line_length; at++)
		tv_read(line, line_length, at, out, sizeof out);
}

static void read_record(void)
{
	for (size_t at = 0; at < line_length; at += 64)
		tv_read_record(line, line_length, at, out, sizeof out);
}

static void write_event(void)
{
	for (unsigned what = 0; what < 6; what++)
		for (unsigned code = 238; code < 256; code++)
			tv_write((uint8_t)what, (uint8_t)code, 255, line, 1000, out, sizeof out);
}

static void sides_fresh(void)
{
	tv_sides_fresh();
}

static void sides_receive(void)
{
	tv_sides_t sides = tv_sides_fresh();
	for (unsigned i = 0; i < 4096; i++)
		sides = tv_sides_receive(sides, (uint8_t)(250 + i % 5), (uint8_t)(i % 41), i & 1).sides;
}

static void sides_request(void)
{
	tv_sides_t sides = tv_sides_fresh();
	for (unsigned i = 0; i < 4096; i++)
		sides = tv_sides_request(sides, i & 1, (uint8_t)(i % 41), i & 2).sides;
}

static void option_receive(void)
{
	tv_sides_t sides = tv_sides_fresh();
	for (unsigned i = 0; i < 4096; i++)
		sides = tv_option_receive(sides, (uint8_t)(250 + i % 5), (uint8_t)(i % 41), i & 1, out, 8, i % 10).sides;
}

static void option_request(void)
{
	tv_sides_t sides = tv_sides_fresh();
	for (unsigned i = 0; i < 4096; i++)
		sides = tv_option_request(sides, i & 1, (uint8_t)(i % 41), i & 2, out, 8, i % 10).sides;
}

static void option_hear(void)
{
	tv_sides_t sides = tv_sides_fresh();
	for (size_t at = 0; at < line_length + 2; at++)
		sides = tv_option_hear(sides, line, line_length, at, at & 1, out, 8, at % 10).sides;
}

/* Payloads of up to 65 variables, then that of 64. */
static void env_read(void)
{
	memcpy(payload + payload_length, more, sizeof more);
	for (size_t n = 0; n <= payload_length + sizeof more; n++)
		tv_env_read(payload, n, bytes, sizeof bytes, numbers, sizeof numbers / sizeof *numbers);
	held = tv_env_read(payload, payload_length, bytes, sizeof bytes, numbers, sizeof numbers / sizeof *numbers);
}

static void env_write(void)
{
	tv_env_write(TV_ENV_INFO, bytes, held.bytes, numbers, TV_ENV_NUMBERS * held.variables, out, sizeof out);
}

static void env_value(void)
{
	tv_env_value(bytes, held.bytes, numbers, TV_ENV_NUMBERS * held.variables, TV_ENV_USERVAR, (const uint8_t *)"IBMSUBSPW", 9);
	tv_env_value(bytes, held.bytes, numbers, TV_ENV_NUMBERS * held.variables, TV_ENV_VAR, (const uint8_t *)"NONE", 4);
}

static void list_line(void)
{
	for (size_t at = 0; at < line_length; at++)
		tv_line(line, line_length, at, out, sizeof out);
}

static void list(void)
{
	tv_list(line, line_length, out, sizeof out);
}

static void table_check(void)
{
	tv_table_check(table, table_length);
}

static void table_find(void)
{
	tv_table_find(table, table_length, name, 10);
}

static void make_record(void)
{
	tv_make_record(name, 10, password, 10, true, true, out, sizeof out);
	tv_make_record(name, 10, phrase, sizeof phrase, true, true, out, sizeof out);
}

static void des_token(void)
{
	tv_des_token(name, 10, password, 10);
}

static void des_substitute(void)
{
	tv_des_substitute(0x8af6816c885dd6e0, name, 10, 1, 2);
}

static void sha_token(void)
{
	tv_sha_token(name, 10, phrase, sizeof phrase, out, sizeof out);
}

static void sha_substitute(void)
{
	tv_sha_substitute(token, sizeof token, name, 10, 1, 2, out, sizeof out);
}

/* A variable; without a value it is undefined. */
static void put_variable(uint8_t kind, const char *variable, const uint8_t *value, size_t length)
{
	payload[payload_length++] = kind;
	memcpy(payload + payload_length, variable, strlen(variable));
	payload_length += strlen(variable);
	if (!value)
		return;
	payload[payload_length++] = 1;
	memcpy(payload + payload_length, value, length);
	payload_length += length;
}

/* 64 variables, the last three those of a sign-on. */
static void fill_payload(const uint8_t *client_seed, size_t seed_length, const uint8_t *offered, size_t offered_length)
{
	payload_length = 1;
	for (unsigned i = 0; i < 61; i++) {
		char variable[] = {(char)('A' + i % 26), (char)('A' + i / 26), 0};
		put_variable(i & 1 ? TV_ENV_USERVAR : TV_ENV_VAR, variable, i % 8 == 7 ? NULL : name, 6);
	}
	put_variable(TV_ENV_VAR, "USER", name, 10);
	put_variable(TV_ENV_USERVAR, "IBMRSEED", client_seed, seed_length);
	put_variable(TV_ENV_USERVAR, "IBMSUBSPW", offered, offered_length);
}

static void verdict(void)
{
	static const size_t lengths[] = {8, 20, 128};
	for (size_t i = 0; i < 3; i++) {
		fill_payload(seed, i == 2 ? 0 : sizeof seed, phrase, lengths[i]);
		memcpy(payload + payload_length, more, sizeof more);
		tv_verdict(seed, sizeof seed, table, table_length, payload, payload_length + sizeof more);
		if (tv_verdict(seed, sizeof seed, table, table_length, payload, payload_length).verdict != TV_VERDICT_FAILED)
			abort();
	}
}

static void explain(void)
{
	static const size_t lengths[] = {8, 20, 128};
	for (size_t i = 0; i < 3; i++) {
		fill_payload(seed, i == 2 ? 0 : sizeof seed, phrase, lengths[i]);
		memcpy(payload + payload_length, more, sizeof more);
		tv_explain(seed, sizeof seed, table, table_length, payload, payload_length + sizeof more);
		if (tv_explain(seed, sizeof seed, table, table_length, payload, payload_length).reason / 10 != TV_VERDICT_FAILED)
			abort();
	}
}

static void response(void)
{
	for (unsigned v = 0; v < 7; v++)
		tv_response(v == 6, (uint8_t)v, name, 8, name, 10, out, sizeof out);
}

static void read_frame(void)
{
	tv_read_frame(frame, sizeof frame);
}

static void ledger_fresh(void)
{
	tv_ledger_fresh();
}

static void ledger_take(void)
{
	tv_ledger_take((tv_ledger_t){TV_LEDGER_IDLE}, frame, sizeof frame);
	tv_ledger_take((tv_ledger_t){TV_LEDGER_HOLDING}, frame, sizeof frame);
}

static void ledger_complete(void)
{
	tv_ledger_complete((tv_ledger_t){TV_LEDGER_HOLDING}, out, sizeof out);
}

static const struct measure {
	const char *call;
	void (*make)(void);
	size_t limit;
} measures[] = {
	{"tv_reader_fresh", reader_fresh, TV_STACK_READER_FRESH},
	{"tv_reader_reset", reader_reset, TV_STACK_READER_RESET},
	{"tv_reader_feed", reader_feed, TV_STACK_READER_FEED},
	{"tv_reader_close", reader_close, TV_STACK_READER_CLOSE},
	{"tv_look", look, TV_STACK_LOOK},
	{"tv_read", read_event, TV_STACK_READ},
	{"tv_read_record", read_record, TV_STACK_READ_RECORD},
	{"tv_write", write_event, TV_STACK_WRITE},
	{"tv_sides_fresh", sides_fresh, TV_STACK_SIDES_FRESH},
	{"tv_sides_receive", sides_receive, TV_STACK_SIDES_RECEIVE},
	{"tv_sides_request", sides_request, TV_STACK_SIDES_REQUEST},
	{"tv_option_receive", option_receive, TV_STACK_OPTION_RECEIVE},
	{"tv_option_request", option_request, TV_STACK_OPTION_REQUEST},
	{"tv_option_hear", option_hear, TV_STACK_OPTION_HEAR},
	{"tv_env_read", env_read, TV_STACK_ENV_READ},
	{"tv_env_write", env_write, TV_STACK_ENV_WRITE},
	{"tv_env_value", env_value, TV_STACK_ENV_VALUE},
	{"tv_line", list_line, TV_STACK_LINE},
	{"tv_list", list, TV_STACK_LIST},
	{"tv_table_check", table_check, TV_STACK_TABLE_CHECK},
	{"tv_table_find", table_find, TV_STACK_TABLE_FIND},
	{"tv_make_record", make_record, TV_STACK_MAKE_RECORD},
	{"tv_des_token", des_token, TV_STACK_DES_TOKEN},
	{"tv_des_substitute", des_substitute, TV_STACK_DES_SUBSTITUTE},
	{"tv_sha_token", sha_token, TV_STACK_SHA_TOKEN},
	{"tv_sha_substitute", sha_substitute, TV_STACK_SHA_SUBSTITUTE},
	{"tv_verdict", verdict, TV_STACK_VERDICT},
	{"tv_explain", explain, TV_STACK_EXPLAIN},
	{"tv_response", response, TV_STACK_RESPONSE},
	{"tv_read_frame", read_frame, TV_STACK_READ_FRAME},
	{"tv_ledger_fresh", ledger_fresh, TV_STACK_LEDGER_FRESH},
	{"tv_ledger_take", ledger_take, TV_STACK_LEDGER_TAKE},
	{"tv_ledger_complete", ledger_complete, TV_STACK_LEDGER_COMPLETE},
};

static uint8_t *area;

/* How far below this frame a call reaches. */
__attribute__((noinline)) static size_t depth_of(void (*make)(void))
{
	volatile uint8_t *here = __builtin_frame_address(0);
	volatile uint8_t *paint = area;
	volatile uint8_t *below = here - 128; /* this frame itself is not painted */

	make();
	while (paint < below)
		*paint++ = PAINT;
	make();
	for (paint = area; paint < below && *paint == PAINT; paint++)
		;
	return (size_t)(here - paint);
}

static void *measure_all(void *unused)
{
	size_t failures = 0;

	for (size_t i = 0; i < sizeof measures / sizeof *measures; i++) {
		size_t depth = depth_of(measures[i].make);
		printf("%-20s %6zu of %6zu\n", measures[i].call, depth, measures[i].limit);
		failures += depth > measures[i].limit;
	}
	(void)unused;
	return (void *)failures;
}

/* Runs, doubled 255s, option commands and a long subnegotiation. */
static void fill_line(void)
{
	static const uint8_t some[] = {65, 66, 255, 255, 67, 255, TV_DO, TV_OPTION_TERMINAL_TYPE, 255, TV_EOR, 255, TV_NOP};
	tv_written_t w;

	for (unsigned i = 0; i < 100; i++, line_length += sizeof some)
		memcpy(line + line_length, some, sizeof some);
	w = tv_write(TV_SUBNEGOTIATION, 0, TV_OPTION_NEW_ENVIRON, line, 1000, out, sizeof out);
	memcpy(line + line_length, out, w.length);
	line_length += w.length;
	line[line_length++] = 255;
}

/* 500 names, the user's own among them. */
static void fill_table(void)
{
	table[table_length++] = TV_TABLE_VERSION;
	for (unsigned i = 0; i < TV_TABLE_PROFILES; i++) {
		uint8_t own[] = "USER000XYZ";
		own[4] = (uint8_t)('0' + i / 100);
		own[5] = (uint8_t)('0' + i / 10 % 10);
		own[6] = (uint8_t)('0' + i % 10);
		table_length += tv_make_record(own, 10, password, 10, true, true, table + table_length, sizeof table - table_length).length;
	}
	if (tv_table_check(table, table_length).profiles != TV_TABLE_PROFILES)
		abort();
}

int main(void)
{
	static const uint8_t header[] = {1, 44, 0x12, 0xA0, 0x11, 1, 40, 0xF8, 0, 1};
	pthread_attr_t attributes;
	pthread_t thread;
	void *failures;

	memset(phrase, 'x', sizeof phrase);
	memcpy(frame, header, sizeof header);
	fill_line();
	fill_table();
	fill_payload(seed, sizeof seed, phrase, 128);
	area = aligned_alloc(4096, AREA);
	if (!area || pthread_attr_init(&attributes) || pthread_attr_setstack(&attributes, area, AREA)
			|| pthread_create(&thread, &attributes, measure_all, NULL) || pthread_join(thread, &failures))
		abort();
	return failures ? 1 : 0;
}
