/*
 * Our calls beside their peers on the same bytes: libtelnet for events, OpenSSL for SHA-1 and DES, each where it is installed. Both are timed by
 * turns in one run; told are the medians of the times, and of the ratios turn by turn. Before that each peer's answer is compared with ours.
 */
#include <stdio.h>
#include <stdlib.h>
#include <string.h>
#include <time.h>

#include "tongvelvet.h"

#ifdef WITH_LIBTELNET
#include <libtelnet.h>
#endif
#ifdef WITH_OPENSSL
#define OPENSSL_SUPPRESS_DEPRECATED
#include <openssl/des.h>
#include <openssl/sha.h>
#endif

/* Moves the calls in memory: where a loop lies in its cache lines changes its speed. */
#ifdef SHIFT
#define TEXT(n) #n
#define SKIP(n) __asm__(".text\n.skip " TEXT(n) "\n")
SKIP(SHIFT);
#endif

#define RUNS 21
#define ORDERS 200
#define ORDER 300

static uint8_t order[ORDER], stream[ORDERS * (2 * ORDER + 2)], wide[sizeof stream], out[2048], back[2048], bytes[1024], digest[TV_SHA_LENGTH];
static uint8_t kept[TV_PAYLOAD_LIMIT];
static size_t stream_length, fragment, out_length, records, carried, numbers[TV_ENV_NUMBERS * TV_ENV_VARIABLES];
static uint64_t block;

static const uint8_t name[] = "USER123", password[] = "ABCDEFG", phrase[] = "AbCdEfGh123?+";
static const uint64_t server_seed = 0x7d4c2319f28004b2, client_seed = 0x08bef662d851f4b1;

/* A sign-on as a client sends it: IS, USER, two USERVARs, and a device name. */
static const uint8_t payload[] = "\0\0USER\1USER123\3IBMRSEED\1\x08\xbe\xf6\x62\xd8\x51\xf4\xb1\3IBMSUBSPW\1\x5a\x58\xbd\x50\xe4\xdd\x9b\x5f"
	"\3DEVNAME\1PRT01\3KBDTYPE\1USB";
#define PAYLOAD (sizeof payload - 1)

static void must(bool holds, const char *what)
{
	if (!holds) {
		fprintf(stderr, "bench: %s\n", what);
		exit(1);
	}
}

/* Orders of 300 bytes with four 255s each. */
static void fill_stream(void)
{
	for (size_t i = 0; i < ORDER; i++)
		order[i] = (uint8_t)(i % 75 == 20 ? 255 : 0x40 + i * 7 % 0x90);
	for (size_t i = 0; i < ORDERS; i++) {
		uint8_t *end = stream + sizeof stream;
		stream_length += tv_write(TV_DATA, 0, 0, order, ORDER, stream + stream_length, (size_t)(end - stream) - stream_length).length;
		stream_length += tv_write(TV_COMMAND, TV_EOR, 0, NULL, 0, stream + stream_length, (size_t)(end - stream) - stream_length).length;
	}
}

/* Ours. */

static void our_look(void)
{
	size_t at = 0;

	records = carried = 0;
	for (tv_event_t e; (e = tv_look(stream, stream_length, at)).what != TV_END; at = e.next) {
		carried += e.length;
		records += e.code == TV_EOR;
	}
}

static void read_into(uint8_t *to, size_t room)
{
	size_t at = 0;

	records = carried = 0;
	for (tv_event_t e; (e = tv_read(stream, stream_length, at, to, room)).what != TV_END; at = e.next) {
		carried += e.length;
		records += e.code == TV_EOR;
	}
}

static void read_records_into(uint8_t *to, size_t room)
{
	size_t at = 0;

	records = carried = 0;
	for (tv_record_t r; (r = tv_read_record(stream, stream_length, at, to, room)).complete; at = r.next) {
		carried += r.length;
		records++;
	}
}

static void our_read(void)
{
	read_into(out, sizeof out);
}

/* The stream in fragments. The room is read by nobody here, but it is no local array: its bytes are written. */
static void our_feed(void)
{
	tv_reader_t reader = tv_reader_fresh();
	size_t at = 0;

	records = carried = 0;
	while (at < stream_length) {
		size_t end = stream_length - at < fragment ? stream_length : at + fragment;
		while (at < end) {
			tv_fed_t f = tv_reader_feed(reader, kept, stream + at, end - at, out, sizeof out);
			must(!f.number, "the reader refuses");
			reader = f.reader;
			at += f.taken;
			carried += f.length;
			records += f.code == TV_EOR;
		}
	}
}

static void our_read_wide(void)
{
	read_into(wide, sizeof wide);
}

static void our_read_record(void)
{
	read_records_into(out, sizeof out);
}

static void our_read_record_wide(void)
{
	read_records_into(wide, sizeof wide);
}

static void our_write(void)
{
	out_length = tv_write(TV_DATA, 0, 0, order, ORDER, out, sizeof out).length;
	out_length += tv_write(TV_COMMAND, TV_EOR, 0, NULL, 0, out + out_length, sizeof out - out_length).length;
}

static void our_payload(void)
{
	size_t length = tv_write(TV_SUBNEGOTIATION, 0, TV_OPTION_NEW_ENVIRON, payload, PAYLOAD, out, sizeof out).length;
	tv_event_t e = tv_read(out, length, 0, back, sizeof back);

	carried = tv_env_read(back, e.length, bytes, sizeof bytes, numbers, sizeof numbers / sizeof *numbers).variables;
}

static void our_sha_token(void)
{
	tv_sha_token(name, 7, phrase, 13, digest, sizeof digest);
}

static void our_sha_substitute(void)
{
	tv_sha_substitute(stream, TV_SHA_LENGTH, name, 7, server_seed, client_seed, digest, sizeof digest);
}

static void our_des_token(void)
{
	block = tv_des_token(name, 7, password, 7).value;
}

static void our_des_substitute(void)
{
	block = tv_des_substitute(0x8af6816c885dd6e0, name, 7, server_seed, client_seed).value;
}

/* libtelnet's: what it hands over is counted, and copied where ours is. */

#ifdef WITH_LIBTELNET
static telnet_t *telnet;
static bool copies;
static size_t filled;

static void on_event(telnet_t *unused, telnet_event_t *e, void *nothing)
{
	(void)unused;
	(void)nothing;
	switch (e->type) {
	case TELNET_EV_DATA:
		carried += e->data.size;
		if (copies && filled + e->data.size <= sizeof out) {
			memcpy(out + filled, e->data.buffer, e->data.size);
			filled += e->data.size;
		}
		break;
	case TELNET_EV_IAC:
		records += e->iac.cmd == TELNET_EOR;
		filled = 0;
		break;
	case TELNET_EV_SEND:
		memcpy(out + out_length, e->data.buffer, e->data.size);
		out_length += e->data.size;
		break;
	case TELNET_EV_ENVIRON:
		carried = e->environ.size;
		break;
	case TELNET_EV_ERROR:
		must(false, e->error.msg);
		break;
	default:
		break;
	}
}

static void peer_receive(bool copying)
{
	copies = copying;
	filled = records = carried = 0;
	telnet_recv(telnet, (const char *)stream, stream_length);
}

static void peer_feed(void)
{
	copies = true;
	filled = records = carried = 0;
	for (size_t at = 0; at < stream_length; at += fragment)
		telnet_recv(telnet, (const char *)stream + at, stream_length - at < fragment ? stream_length - at : fragment);
}

static void peer_look(void)
{
	peer_receive(false);
}

static void peer_read(void)
{
	peer_receive(true);
}

static void peer_write(void)
{
	out_length = 0;
	telnet_send(telnet, (const char *)order, ORDER);
	telnet_iac(telnet, TELNET_EOR);
}

static void peer_payload(void)
{
	out_length = 0;
	telnet_subnegotiation(telnet, TELNET_TELOPT_NEW_ENVIRON, (const char *)payload, PAYLOAD);
	telnet_recv(telnet, (const char *)out, out_length);
}
#else
#define peer_feed NULL
#define peer_look NULL
#define peer_read NULL
#define peer_write NULL
#define peer_payload NULL
#endif

/* OpenSSL's. */

#ifdef WITH_OPENSSL
/* What the token of the name and the phrase is the digest of: both in UTF-16, the name with blanks up to ten. */
static uint8_t message[46];

static void fill_message(void)
{
	for (size_t i = 0; i < 23; i++)
		message[2 * i + 1] = i < 7 ? name[i] : i < 10 ? ' ' : phrase[i - 10];
}

static void peer_sha_token(void)
{
	SHA1(message, sizeof message, digest);
}

static void peer_sha_token_old(void)
{
	SHA_CTX context;

	SHA1_Init(&context);
	SHA1_Update(&context, message, sizeof message);
	SHA1_Final(digest, &context);
}

static void peer_sha_substitute(void)
{
	SHA1(stream, 64, digest);
}

static uint64_t number_of(const uint8_t *from)
{
	uint64_t n = 0;

	for (size_t i = 0; i < 8; i++)
		n = n << 8 | from[i];
	return n;
}

/* A key schedule, and blocks that are chained under it. */
static uint64_t peer_chain(DES_cblock *key, const uint8_t *blocks, long length)
{
	DES_key_schedule schedule;
	DES_cblock vector = {0};

	DES_set_key_unchecked(key, &schedule);
	DES_ncbc_encrypt(blocks, out, length, &schedule, &vector, DES_ENCRYPT);
	return number_of(out + length - 8);
}

/* ABCDEFG and USER123 in EBCDIC; the key XORed with 55 and shifted left (section 5.1). */
static void peer_des_token(void)
{
	static DES_cblock key = {0x29, 0x2f, 0x2d, 0x23, 0x21, 0x27, 0x24, 0x2a};
	static const uint8_t id[] = {0xe4, 0xe2, 0xc5, 0xd9, 0xf1, 0xf2, 0xf3, 0x40};

	block = peer_chain(&key, id, 8);
}

static void peer_des_substitute(void)
{
	static DES_cblock key = {0x8a, 0xf6, 0x81, 0x6c, 0x88, 0x5d, 0xd6, 0xe0};
	static const uint8_t blocks[40] = {
		0x7d, 0x4c, 0x23, 0x19, 0xf2, 0x80, 0x04, 0xb3, 0x08, 0xbe, 0xf6, 0x62, 0xd8, 0x51, 0xf4, 0xb1,
		0xe4 ^ 0x7d, 0xe2 ^ 0x4c, 0xc5 ^ 0x23, 0xd9 ^ 0x19, 0xf1 ^ 0xf2, 0xf2 ^ 0x80, 0xf3 ^ 0x04, 0x40 ^ 0xb3,
		0x40 ^ 0x7d, 0x40 ^ 0x4c, 0x40 ^ 0x23, 0x40 ^ 0x19, 0x40 ^ 0xf2, 0x40 ^ 0x80, 0x40 ^ 0x04, 0x40 ^ 0xb3,
		0, 0, 0, 0, 0, 0, 0, 1};

	block = peer_chain(&key, blocks, sizeof blocks);
}
#else
#define peer_sha_token NULL
#define peer_sha_token_old NULL
#define peer_sha_substitute NULL
#define peer_des_token NULL
#define peer_des_substitute NULL
#endif

/* Time that this process ran: others on the machine do not count. */
static double now(void)
{
	struct timespec t;

	clock_gettime(CLOCK_PROCESS_CPUTIME_ID, &t);
	return (double)t.tv_sec * 1e9 + (double)t.tv_nsec;
}

/* Nanoseconds of one call. */
static double timed(void (*call)(void), size_t times)
{
	double start = now();

	for (size_t i = 0; i < times; i++)
		call();
	return (now() - start) / (double)times;
}

static size_t times_for(void (*call)(void))
{
	size_t times = 1;

	while (timed(call, times) * (double)times < 2e7)
		times *= 2;
	return times;
}

static int ascending(const void *a, const void *b)
{
	double x = *(const double *)a, y = *(const double *)b;
	return (x > y) - (x < y);
}

static double median(double *of)
{
	qsort(of, RUNS, sizeof *of, ascending);
	return of[RUNS / 2];
}

/* One row: by the call, or by the byte where a call takes `by` bytes. */
static void compare(const char *what, void (*ours)(void), const char *peer_name, void (*peer)(void), size_t by)
{
	double our_times[RUNS], peer_times[RUNS], ratios[RUNS];
	size_t times = times_for(ours), peer_calls = peer ? times_for(peer) : 0;
	const char *unit = by > 1 ? "ns/byte" : "ns";

	for (size_t i = 0; i < RUNS; i++) {
		our_times[i] = timed(ours, times) / (double)by;
		peer_times[i] = peer ? timed(peer, peer_calls) / (double)by : 0;
		ratios[i] = peer_times[i] / our_times[i];
	}
	printf("| %s | %.*f %s ", what, by > 1 ? 3 : 0, median(our_times), unit);
	if (!peer) {
		printf("| not installed | | |\n");
		return;
	}
	printf("| %s | %.*f %s | %.2f |\n", peer_name, by > 1 ? 3 : 0, median(peer_times), unit, median(ratios));
}

/* Both ends agree on what they are timed over. */
static void agree_on_the_line(void)
{
#ifdef WITH_LIBTELNET
	static uint8_t ours[sizeof out];
	size_t length;

	telnet = telnet_init(NULL, on_event, 0, NULL);
	must(telnet != NULL, "libtelnet does not start");
	our_write();
	length = out_length;
	memcpy(ours, out, length);
	peer_write();
	must(out_length == length && !memcmp(ours, out, length), "libtelnet writes other bytes");
	peer_read();
	must(records == ORDERS && carried == ORDERS * ORDER && !memcmp(out, order, ORDER), "libtelnet reads other records");
	peer_payload();
	must(carried == 5, "libtelnet reads other variables");
#endif
	for (fragment = 1; fragment < 2000; fragment = 3 * fragment + 1) {
		our_feed();
		must(records == ORDERS && carried == ORDERS * ORDER, "other events are read in fragments");
#ifdef WITH_LIBTELNET
		peer_feed();
		must(records == ORDERS && carried == ORDERS * ORDER, "libtelnet reads other events in fragments");
#endif
	}
	our_read_record();
	must(records == ORDERS && carried == ORDERS * ORDER && !memcmp(out, order, ORDER), "other records are read");
	our_read_record_wide();
	must(records == ORDERS && carried == ORDERS * ORDER && !memcmp(wide, order, ORDER), "other records are read");
	our_read_wide();
	must(records == ORDERS && carried == ORDERS * ORDER && !memcmp(wide, order, ORDER), "other events are read");
	our_read();
	must(records == ORDERS && carried == ORDERS * ORDER && !memcmp(out, order, ORDER), "other events are read");
	our_payload();
	must(carried == 5, "other variables are read");
}

static void agree_on_tokens(void)
{
#ifdef WITH_OPENSSL
	uint8_t ours[sizeof digest];
	uint64_t token;

	fill_message();
	our_sha_token();
	memcpy(ours, digest, sizeof ours);
	peer_sha_token();
	must(!memcmp(ours, digest, sizeof ours), "OpenSSL gives another SHA-1 token");
	our_des_token();
	token = block;
	peer_des_token();
	must(block == token, "OpenSSL gives another DES token");
	our_des_substitute();
	token = block;
	peer_des_substitute();
	must(block == token, "OpenSSL gives another DES substitute");
#endif
}

/* The rows of the reader: by the byte, and at one byte a fragment also by the call, which is then the same number. */
static void compare_fragments(void)
{
	static const size_t sizes[] = {1024, 300, 20, 1};
	static const char *const names[] = {"tv_reader_feed, fragments of 1,024", "tv_reader_feed, fragments of 300",
			"tv_reader_feed, fragments of 20", "tv_reader_feed, fragments of 1"};
	static const char *const peers[] = {"telnet_recv of 1,024", "telnet_recv of 300", "telnet_recv of 20", "telnet_recv of 1"};

	for (size_t i = 0; i < sizeof sizes / sizeof *sizes; i++) {
		fragment = sizes[i];
		compare(names[i], our_feed, peers[i], peer_feed, stream_length);
	}
}

int main(void)
{
	fill_stream();
	agree_on_the_line();
	agree_on_tokens();
	puts("| Ours | time | Peer | time | our speed by the peer's |");
	puts("|---|---|---|---|---|");
	compare_fragments();
	compare("tv_look", our_look, "telnet_recv, counted", peer_look, stream_length);
	compare("tv_read, room for the stream", our_read_wide, "telnet_recv, copied", peer_read, stream_length);
	compare("tv_read, room of 2,048 bytes", our_read, "telnet_recv, copied", peer_read, stream_length);
	compare("tv_read_record, room for the stream", our_read_record_wide, "telnet_recv, copied", peer_read, stream_length);
	compare("tv_read_record, room of 2,048 bytes", our_read_record, "telnet_recv, copied", peer_read, stream_length);
	compare("tv_write, an order and its end", our_write, "telnet_send, telnet_iac", peer_write, ORDER);
	compare("tv_write, tv_read, tv_env_read of a sign-on", our_payload, "telnet_subnegotiation, telnet_recv", peer_payload, 1);
	compare("tv_sha_token, 46 bytes", our_sha_token, "SHA1", peer_sha_token, 1);
	compare("tv_sha_token, 46 bytes", our_sha_token, "SHA1_Init, _Update, _Final", peer_sha_token_old, 1);
	compare("tv_sha_substitute, 64 bytes", our_sha_substitute, "SHA1", peer_sha_substitute, 1);
	compare("tv_des_token, key and one block", our_des_token, "DES_set_key_unchecked, DES_ncbc_encrypt", peer_des_token, 1);
	compare("tv_des_substitute, key and five blocks", our_des_substitute, "the same", peer_des_substitute, 1);
	return 0;
}
