/*
 * What c/fuzz.c tries its calls with: random bytes, slices that end where memory ends, buffers between guard bytes, and a count of what each call
 * answered.
 */
#ifndef FUZZ_H
#define FUZZ_H 1

#include <stdio.h>
#include <stdlib.h>
#include <string.h>
#include <sys/mman.h>

#include "tongvelvet.h"

#define CALLS 1000000
#define SEED 0x5250
#define CAPACITY 8192
#define GUARD 32
#define PAGE 4096
#define SLICES 3

static uint64_t state = SEED, calls;

static void fail(const char *what, const char *file, int line)
{
	fprintf(stderr, "%s:%d: %s (after %llu calls)\n", file, line, what, (unsigned long long)calls);
	exit(1);
}

#define CHECK(holds) do { if (!(holds)) fail(#holds, __FILE__, __LINE__); } while (0)

/* SplitMix64. */
static uint64_t any(void)
{
	uint64_t z = state += 0x9E3779B97F4A7C15u;
	z = (z ^ z >> 30) * 0xBF58476D1CE4E5B9u;
	z = (z ^ z >> 27) * 0x94D049BB133111EBu;
	return z ^ z >> 31;
}

static size_t below(size_t n)
{
	return n ? any() % n : 0;
}

static bool one_in(size_t n)
{
	return below(n) == 0;
}

/* What each call answered. */
enum call {
	READER_FRESH, READER_RESET, READER_FEED, READER_CLOSE, LOOK, READ, READ_RECORD, WRITE, SIDES_FRESH, SIDES_RECEIVE, SIDES_REQUEST, OPTION_RECEIVE, OPTION_REQUEST, OPTION_HEAR, ENV_READ,
	ENV_WRITE, ENV_VALUE, LINE, LIST, TABLE_CHECK,
	TABLE_FIND, MAKE_RECORD, DES_TOKEN, DES_SUBSTITUTE, SHA_TOKEN, SHA_SUBSTITUTE, VERDICT, EXPLAIN, RESPONSE, READ_FRAME, LEDGER_FRESH,
	LEDGER_TAKE, LEDGER_COMPLETE, HOW_MANY
};

static const struct promise {
	const char *name;
	uint8_t refusals[16]; /* 0 ends them */
} promises[HOW_MANY] = {
	[READER_FRESH] = {"tv_reader_fresh", {0}},
	[READER_RESET] = {"tv_reader_reset", {0}},
	[READER_FEED] = {"tv_reader_feed", {2, 3, 4, 6}},
	[READER_CLOSE] = {"tv_reader_close", {1, 2, 3, 6}},
	[LOOK] = {"tv_look", {1, 2, 3, 5, 6}},
	[READ] = {"tv_read", {1, 2, 3, 4, 5, 6}},
	[READ_RECORD] = {"tv_read_record", {1, 2, 3, 4, 5, 6}},
	[WRITE] = {"tv_write", {3, 4, 7}},
	[SIDES_FRESH] = {"tv_sides_fresh", {0}},
	[SIDES_RECEIVE] = {"tv_sides_receive", {6}},
	[SIDES_REQUEST] = {"tv_sides_request", {10, 11, 12, 13}},
	[OPTION_RECEIVE] = {"tv_option_receive", {4, 5, 6}},
	[OPTION_REQUEST] = {"tv_option_request", {4, 5, 10, 11, 12, 13}},
	[OPTION_HEAR] = {"tv_option_hear", {1, 2, 3, 4, 5, 6}},
	[ENV_READ] = {"tv_env_read", {3, 4, 20, 21, 22, 23, 24, 25}},
	[ENV_WRITE] = {"tv_env_write", {3, 4, 20, 21, 24, 25, 27}},
	[ENV_VALUE] = {"tv_env_value", {0}},
	[LINE] = {"tv_line", {4}},
	[LIST] = {"tv_list", {4}},
	[TABLE_CHECK] = {"tv_table_check", {30, 31, 32}},
	[TABLE_FIND] = {"tv_table_find", {30, 31, 32}},
	[MAKE_RECORD] = {"tv_make_record", {4, 33, 34}},
	[DES_TOKEN] = {"tv_des_token", {33, 34}},
	[DES_SUBSTITUTE] = {"tv_des_substitute", {33}},
	[SHA_TOKEN] = {"tv_sha_token", {4, 33, 34}},
	[SHA_SUBSTITUTE] = {"tv_sha_substitute", {4, 31, 33}},
	[VERDICT] = {"tv_verdict", {3, 20, 21, 22, 23, 24, 25, 30, 31, 32, 35}},
	[EXPLAIN] = {"tv_explain", {3, 20, 21, 22, 23, 24, 25, 30, 31, 32, 35}},
	[RESPONSE] = {"tv_response", {4, 36}},
	[READ_FRAME] = {"tv_read_frame", {40, 41, 42, 43, 44, 45}},
	[LEDGER_FRESH] = {"tv_ledger_fresh", {0}},
	[LEDGER_TAKE] = {"tv_ledger_take", {40, 41, 42, 43, 44, 45, 50, 52}},
	[LEDGER_COMPLETE] = {"tv_ledger_complete", {4, 51}},
};

static uint64_t counts[HOW_MANY][256];

static bool counted(enum call call, uint8_t refusal)
{
	CHECK(!refusal || strchr((const char *)promises[call].refusals, refusal));
	counts[call][refusal]++;
	calls++;
	return !refusal;
}

/* Slices that are read: each ends before a page that nobody may touch, and is compared with its source after the call. */
struct slice {
	const uint8_t *bytes;
	size_t length;
};

static uint8_t *arenas[SLICES];
static struct {
	const void *source;
	struct slice slice;
} given[SLICES];

static void make_arenas(void)
{
	for (size_t i = 0; i < SLICES; i++) {
		arenas[i] = mmap(NULL, CAPACITY + PAGE, PROT_READ | PROT_WRITE, MAP_PRIVATE | MAP_ANONYMOUS, -1, 0);
		CHECK(arenas[i] != MAP_FAILED);
		CHECK(!mprotect(arenas[i] + CAPACITY, PAGE, PROT_NONE));
	}
}

static struct slice give(size_t arena, const void *source, size_t length)
{
	uint8_t *at = arenas[arena] + CAPACITY - length;

	if (length)
		memcpy(at, source, length);
	given[arena].source = source;
	given[arena].slice = (struct slice){length || one_in(2) ? at : NULL, length};
	return given[arena].slice;
}

static void given_as_were(void)
{
	for (size_t i = 0; i < SLICES; i++) {
		if (given[i].slice.length)
			CHECK(!memcmp(given[i].slice.bytes, given[i].source, given[i].slice.length));
		given[i].slice.length = 0;
	}
}

/* A buffer that is lent, between guard bytes, with a copy of all. */
struct room {
	size_t length;
	_Alignas(size_t) uint8_t memory[GUARD + CAPACITY + GUARD];
	_Alignas(size_t) uint8_t before[GUARD + CAPACITY + GUARD];
};

static struct room out_room, numbers_room, kept_room;

static uint8_t *lend(struct room *room, size_t length)
{
	size_t all = GUARD + length + GUARD;

	CHECK(length <= CAPACITY);
	room->length = length;
	memset(room->memory, (int)any(), all);
	memset(room->memory, 0xB5, GUARD);
	memset(room->memory + GUARD + length, 0x5B, GUARD);
	memcpy(room->before, room->memory, all);
	return length || one_in(2) ? room->memory + GUARD : NULL;
}

/* Nothing but the bytes between two places of a buffer has changed. */
static void only_between(const struct room *room, size_t from, size_t to)
{
	size_t after = GUARD + to;

	CHECK(from <= to && to <= room->length);
	CHECK(!memcmp(room->memory, room->before, GUARD + from));
	CHECK(!memcmp(room->memory + after, room->before + after, room->length - to + GUARD));
}

/* Nothing but its first bytes, as many as are told. */
static void only_front(const struct room *room, size_t length)
{
	only_between(room, 0, length);
}

static const uint8_t *front(const struct room *room)
{
	return room->memory + GUARD;
}

static bool written(enum call call, tv_written_t w)
{
	given_as_were();
	only_front(&out_room, w.length);
	CHECK(!w.refusal || !w.length);
	return counted(call, w.refusal);
}

/* Room of a length that is enough, just enough or too short. */
static size_t room_near(size_t length)
{
	size_t n = one_in(3) ? length + below(40) : one_in(2) ? length : below(length + 1);
	return n < CAPACITY ? n : CAPACITY;
}

/* Sources of bytes. */

static size_t fill(uint8_t *bytes, size_t length)
{
	static const uint8_t telling[] = {255, 255, 255, 250, 240, 239, 251, 252, 253, 254, 0, 1, 2, 3, 24, 39, 'A', 'Z', '0'};
	size_t kind = below(3);

	for (size_t i = 0; i < length; i++)
		bytes[i] = kind && !one_in(4 * kind) ? telling[below(sizeof telling)] : (uint8_t)any();
	return length;
}

/* Changes, drops or adds a byte now and then. */
static size_t disturb(uint8_t *bytes, size_t length)
{
	if (length && one_in(4))
		bytes[below(length)] = one_in(2) ? (uint8_t)any() : (uint8_t)below(5);
	if (length && one_in(8))
		length -= 1 + below(length < 4 ? length : 4);
	if (one_in(16))
		bytes[length++] = (uint8_t)any();
	return length;
}

static size_t fill_of(const char *characters, uint8_t *bytes, size_t length)
{
	size_t many = strlen(characters);

	for (size_t i = 0; i < length; i++)
		bytes[i] = (uint8_t)characters[below(many)];
	return length;
}

/* A name, mostly a good one of at most `limit` bytes. */
static size_t fill_name(uint8_t *bytes, size_t limit)
{
	size_t length = fill_of("ABCXYZ019$#@_az", bytes, one_in(20) ? below(limit + 4) : 1 + below(limit));

	if (length && one_in(20))
		bytes[below(length)] = (uint8_t)any();
	return length;
}

static size_t fill_password(uint8_t *bytes)
{
	if (one_in(2))
		return fill_name(bytes, 10);
	return fill_of(one_in(20) ? "abc\x7F\x1F" : "abcXYZ 09~!", bytes, one_in(10) ? below(140) : below(30));
}

#endif
