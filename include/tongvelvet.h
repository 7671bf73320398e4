/*
 * tongvelvet - the proved core of a 5250 Telnet gateway
 *
 * Framing, option negotiation, environment strings, sign-on and printer
 * frames of 5250 Telnet, as functions over buffers that the caller lends.
 * There is no I/O, no heap, no global and no hidden state: every call may be
 * made from any thread, and two calls meet only in what they are both given.
 * The header is C99, and C++11.
 *
 * CONFORMS TO:
 *
 * RFC 854, 855, 885   commands, options, end of record
 * RFC 1143            option negotiation
 * RFC 1572            environment strings
 * RFC 4777            5250 Telnet: sign-on, start-up, printing
 *
 * SLICES:
 *
 * A slice is a pointer and a length, two arguments. A slice that is const is
 * only read; one that is not is lent for the answer, which goes to its front.
 * The pointer of a slice of length 0 is not followed and may be NULL. A
 * buffer that is written must not overlap another slice of the same call.
 * Nothing that is lent is kept after the call.
 *
 * REFUSALS:
 *
 * Every call takes whatever it is given and ends. Where it cannot answer it
 * refuses by a number, TV_REFUSED_... below. Then no byte of what was lent has
 * changed, and every other field of the answer is 0; but sides, a ledger, a
 * reader and the place on a line are handed back by the very numbers that were
 * given. Where it does not refuse, no byte after the length that it tells has
 * changed; tv_reader_feed tells two lengths, and is lent an array besides.
 *
 * STACK:
 *
 * What each call takes at most is TV_STACK_... at its declaration, in bytes:
 * measured by c/stack.c on the archive as it is built, over inputs that go
 * deep, and rounded up. No stack grows with the length of an input beyond
 * that. Where the C library is bound lazily, the first call of memcpy or
 * memset takes the loader's own stack beside it. Passwords, tokens and what
 * was computed of them stay on the stack that a call has left until something
 * else is written there: nothing is promised about it. Who must wipe them
 * makes the calls on a stack of his own and wipes that.
 *
 * The archive is built for x86-64 Linux, and needs memcpy and memset alone.
 * c/check builds it.
 */

#ifndef TONGVELVET_H
#define TONGVELVET_H 1

#include <stdbool.h>
#include <stddef.h>
#include <stdint.h>

#ifdef __cplusplus
extern "C" {
#endif

/*
 * Refusals. 0 is none. What an operator does about each is said in
 * docs/REFUSALS.md.
 */

#define TV_NOT_REFUSED 0

/* Framing. */

/* The bytes end in the middle of a command or a subnegotiation. */
#define TV_REFUSED_CUT_SHORT 1
/* Inside a subnegotiation a 255 is alone. */
#define TV_REFUSED_UNDOUBLED 2
/* A payload is longer than 1,024 bytes. */
#define TV_REFUSED_PAYLOAD_TOO_LONG 3
/* A buffer or list that was lent is too short for the whole answer. */
#define TV_REFUSED_NO_ROOM 4
/* The place lies past the end of the bytes. */
#define TV_REFUSED_PAST_THE_END 5
/* A 255 is followed by a byte that is no command. */
#define TV_REFUSED_BAD_COMMAND 6
/* An empty run of data, or what is no event, was to be written. */
#define TV_REFUSED_NOT_WRITABLE 7

/* Options. */

/* Request for an option that is not carried. */
#define TV_REFUSED_NOT_CARRIED 10
/* The option is as requested already. */
#define TV_REFUSED_ALREADY_SO 11
/* The same request is under way. */
#define TV_REFUSED_UNDER_WAY 12
/* The same request waits until another one is answered. */
#define TV_REFUSED_ALREADY_QUEUED 13
/* No refusal but a note, with a changed state: off was answered by on. */
#define TV_NOTE_OFF_ANSWERED_BY_ON 14

/* Environment strings. */

/* A payload is empty, or begins with neither IS nor INFO. */
#define TV_REFUSED_NOT_IS_OR_INFO 20
/* A variable was expected and is not there, or it has no name. */
#define TV_REFUSED_NO_VARIABLE 21
/* An ESC at the end, or before a byte that needs none. */
#define TV_REFUSED_BAD_ESCAPE 22
/* A second VALUE inside a value. */
#define TV_REFUSED_VALUE_IN_VALUE 23
/* More than 64 variables. */
#define TV_REFUSED_TOO_MANY_VARIABLES 24
/* The same variable twice. */
#define TV_REFUSED_REPEATED_VARIABLE 25
/*
 * A variable record has a kind that is none, points past its buffer, or is
 * undefined and has bytes of a value.
 */
#define TV_REFUSED_BAD_VARIABLE_RECORD 27

/* Profile table, tokens, sign-on and response records. */

/* The profile table is empty, or of another version. */
#define TV_REFUSED_BAD_TABLE 30
/* A record of the profile table, or a stored token, is malformed. */
#define TV_REFUSED_BAD_PROFILE 31
/* Names do not ascend strictly, or there are more than 500. */
#define TV_REFUSED_PROFILES_NOT_ASCENDING 32
/* A profile name is none: 1 to 10 of A-Z, 0-9, $ # @ _. */
#define TV_REFUSED_BAD_PROFILE_NAME 33
/* A password is none: see the call that is given it. */
#define TV_REFUSED_BAD_PASSWORD 34
/* The server's seed has not eight bytes. */
#define TV_REFUSED_BAD_SERVER_SEED 35
/* A device or system name is none. */
#define TV_REFUSED_BAD_DEVICE_OR_SYSTEM_NAME 36

/* Printer frames and the ledger. */

/* A frame is shorter than 10 bytes, or has not the length that it says. */
#define TV_REFUSED_BAD_FRAME_LENGTH 40
/* It is no pass-through record: bytes 2 and 3 are not 12 A0. */
#define TV_REFUSED_BAD_RECORD_TYPE 41
/* Its data flow is not that of a printer. */
#define TV_REFUSED_BAD_DATA_FLOW 42
/* The length of its header does not fit. */
#define TV_REFUSED_BAD_HEADER_LENGTH 43
/* A reserved flag is set. */
#define TV_REFUSED_RESERVED_FLAG 44
/* Its operation is neither print nor clear. */
#define TV_REFUSED_BAD_OPERATION 45
/* A print came while a record is held. */
#define TV_REFUSED_RECORD_HELD 50
/* A completion while no record is held. */
#define TV_REFUSED_NONE_HELD 51
/* A frame that goes to the host was given to the ledger. */
#define TV_REFUSED_INBOUND_FRAME 52

/*
 * Events and records of a line.
 */

/* What stands at a place: tv_event_t.what. */
#define TV_END 0
#define TV_DATA 1
#define TV_COMMAND 2
#define TV_NEGOTIATION 3
#define TV_SUBNEGOTIATION 4

/*
 * The bytes of the line itself. A caller of tv_look and tv_write needs none of
 * the three: what is read comes without them, what is written gets them.
 */
#define TV_IAC 255 /* before every command; doubled where it is data */
#define TV_SB 250  /* a subnegotiation begins */
#define TV_SE 240  /* and ends */

/* Simple commands: tv_event_t.code of a TV_COMMAND. */
#define TV_EOR 239        /* end of record */
#define TV_NOP 241
#define TV_DATA_MARK 242
#define TV_BREAK 243
#define TV_INTERRUPT_PROCESS 244
#define TV_ABORT_OUTPUT 245
#define TV_ARE_YOU_THERE 246
#define TV_ERASE_CHARACTER 247
#define TV_ERASE_LINE 248
#define TV_GO_AHEAD 249

/* Option commands: tv_event_t.code of a TV_NEGOTIATION. */
#define TV_WILL 251
#define TV_WONT 252
#define TV_DO 253
#define TV_DONT 254

/* Options that are carried. */
#define TV_OPTION_BINARY 0
#define TV_OPTION_SUPPRESS_GO_AHEAD 3
#define TV_OPTION_TERMINAL_TYPE 24
#define TV_OPTION_END_OF_RECORD 25
#define TV_OPTION_NEW_ENVIRON 39

/* The first byte of a payload of TERMINAL-TYPE. */
#define TV_TERMINAL_TYPE_IS 0
#define TV_TERMINAL_TYPE_SEND 1

/* The longest payload of a subnegotiation, each doubled 255 as one. */
#define TV_PAYLOAD_LIMIT 1024

/*
 * An event. What an event does not have is 0, and all is 0 where the input
 * ended: next is 0 then, not the place of the end, so a loop that goes on from
 * next begins again at the front. Test what first.
 */
typedef struct tv_event {
	uint8_t what;    /* TV_END to TV_SUBNEGOTIATION */
	uint8_t refusal;
	uint8_t code;    /* the command, or TV_WILL to TV_DONT */
	uint8_t option;  /* of a negotiation or a subnegotiation */
	size_t length;   /* how many bytes it carries, each doubled 255 as one */
	size_t next;     /* the place after it */
} tv_event_t;

/*
 * A record. Where the input ends before an end-of-record nothing is written:
 * refusal is 1 where it ends inside a command or a subnegotiation, else
 * complete and refusal are both 0. Both mean the same: read more from the line
 * and try again from the same place.
 */
typedef struct tv_record {
	uint8_t complete; /* 1 or 0 */
	uint8_t refusal;
	size_t length;    /* of its data */
	size_t next;      /* the place after its end-of-record */
} tv_record_t;

/* How many bytes were written to the front of a buffer. */
typedef struct tv_written {
	uint8_t refusal;
	size_t length;
} tv_written_t;

/*
 * The stream, as the line delivers it. A reader takes the bytes of one session
 * in fragments, cut anywhere: this is how a gateway reads from a socket. The
 * caller keeps the reader and an array of TV_PAYLOAD_LIMIT bytes for it, one
 * of each for a session, and hands both in with each call; the reader that
 * comes back is the state for the next one. In the array the payload of a
 * subnegotiation waits until it is whole. What it holds before the first call,
 * and past the reader's count later, does not matter and may change.
 *
 * A call takes bytes through the last one of the first command or
 * subnegotiation, or through one that is at fault, else to the end of the
 * fragment or TV_CALL_LIMIT of them, whichever is first. Call again with what
 * is left of the fragment until all of it is taken: a call that is given a
 * byte takes one, until there is a fault.
 *
 * However the stream is cut, the data, commands and subnegotiations of all
 * calls are those that tv_read finds in the bytes taken, in their order, but
 * that a run of data may come in pieces.
 */

/* The most bytes of a fragment that a call takes. */
#define TV_CALL_LIMIT 1024

/* The room that a call is lent at least: data and payload always fit. */
#define TV_READER_ROOM 2048

/*
 * Where a reader is: in data, after a 255, after the code of an option
 * command, after 255 250, in a payload, after a 255 in a payload, or after a
 * fault. Another number, and 2 or 6 with a code that such a stage cannot have,
 * reads as TV_STAGE_DATA; a call that refuses hands it back as it was given.
 */
#define TV_STAGE_DATA 0
#define TV_STAGE_IAC_SEEN 1
#define TV_STAGE_CHOOSING 2
#define TV_STAGE_OPENING 3
#define TV_STAGE_PAYLOAD 4
#define TV_STAGE_CLOSING 5
#define TV_STAGE_FAILED 6

/* A reader. At first it is what tv_reader_fresh hands out. */
typedef struct tv_reader {
	uint8_t stage; /* TV_STAGE_... */
	uint8_t code;  /* TV_WILL to TV_DONT at TV_STAGE_CHOOSING, the option at
	                  TV_STAGE_PAYLOAD and _CLOSING, 2, 3 or 6 at
	                  TV_STAGE_FAILED, else 0 */
	size_t count;  /* how many payload bytes the array has at
	                  TV_STAGE_PAYLOAD and _CLOSING, else 0; more than
	                  TV_PAYLOAD_LIMIT reads as that */
} tv_reader_t;

/*
 * What a call gives. number is 0; or 4, a refusal; or 2, 3 or 6, a fault of
 * the stream, which is no refusal: the call that meets it gives the data
 * before it and no event, and taken counts through the byte that is at fault.
 * Later calls give nothing but the number.
 */
typedef struct tv_fed {
	tv_reader_t reader; /* to go on with */
	uint8_t number;
	uint8_t what;    /* TV_END where there is no event, else TV_COMMAND,
	                    TV_NEGOTIATION or TV_SUBNEGOTIATION */
	uint8_t code;    /* as tv_event_t has it */
	uint8_t option;
	size_t taken;    /* how many bytes of the fragment */
	size_t length;   /* how many bytes of data are at the front of the room */
	size_t payload;  /* how many payload bytes are right after the data */
} tv_fed_t;

/* A reader that has read nothing: what a session begins with. Never refused. */
#define TV_STACK_READER_FRESH 512
extern tv_reader_t tv_reader_fresh(void);

/* The same, whatever the reader was. Never refused. */
#define TV_STACK_READER_RESET 512
extern tv_reader_t tv_reader_reset(tv_reader_t reader);

/*
 * Takes a fragment. The array, the fragment and the room must not overlap.
 * After a fault every call answers its number, takes nothing and leaves
 * reader, array and room as they are, until the reader is reset.
 * Refused by 4 where the room is under TV_READER_ROOM bytes, before anything
 * else is looked at: also after a fault, and with nothing to take.
 */
#define TV_STACK_READER_FEED 512
extern tv_fed_t tv_reader_feed(tv_reader_t reader,
		uint8_t kept[TV_PAYLOAD_LIMIT],
		const uint8_t *fragment, size_t fragment_length,
		uint8_t *room, size_t room_length);

/*
 * The stream has ended: 0 where that is between two events, 1 in the middle of
 * one, and the number of the fault after a fault. The reader is the caller's
 * as it was. Never refused.
 */
#define TV_STACK_READER_CLOSE 512
extern uint8_t tv_reader_close(tv_reader_t reader);

/*
 * The event at a place of a line. Nothing is copied.
 * Refused by 5; 1, 2, 3 or 6.
 */
#define TV_STACK_LOOK 512
extern tv_event_t tv_look(const uint8_t *line, size_t line_length, size_t at);

/*
 * The same, with the bytes that the event carries copied to the front of out,
 * each doubled 255 as one. Room that always suffices: what tv_look tells as
 * length, or line_length. With room for all that is left of the line a run is
 * read in one pass, else in two.
 * Refused as tv_look, then by 4.
 */
#define TV_STACK_READ 512
extern tv_event_t tv_read(const uint8_t *line, size_t line_length, size_t at,
		uint8_t *out, size_t out_length);

/*
 * The record from a place on: all data up to the next end-of-record, copied
 * to the front of out, in two passes whatever the room. Commands and
 * subnegotiations in between do not break it and are passed over: a caller
 * that has to answer them looks at the events first. Room that always
 * suffices: line_length.
 * Refused as tv_look, by the number of the event that fails, then by 4.
 */
#define TV_STACK_READ_RECORD 512
extern tv_record_t tv_read_record(const uint8_t *line, size_t line_length,
		size_t at, uint8_t *out, size_t out_length);

/*
 * Writes an event to the front of out. what, code and option name it as in
 * tv_event_t; what the named event does not have is not looked at. A run and
 * a subnegotiation carry the payload, and each 255 in it is doubled. Room that
 * always suffices: 2 * payload_length + 5.
 * Refused by 7 where the numbers name no event, a run is empty or a command
 * is none; by 3 where the payload of a subnegotiation is too long; then by 4.
 */
#define TV_STACK_WRITE 512
extern tv_written_t tv_write(uint8_t what, uint8_t code, uint8_t option,
		const uint8_t *payload, size_t payload_length,
		uint8_t *out, size_t out_length);

/*
 * Options. The caller keeps the ten sides of a session and hands them in with
 * each call; those that come back are the state for the next one.
 *
 * tv_option_request, tv_option_receive and tv_option_hear step the sides and
 * put the command that is to be sent on a line, in one call: where it finds no
 * room no step is taken, and nothing is lost. These are the calls for a
 * gateway. tv_sides_request and tv_sides_receive only tell what is to be
 * written: a caller that keeps the new sides and then gets 4 from tv_write has
 * lost the command. The other end never answers what was not sent, and the
 * request made again is refused by 12.
 *
 * A side stays TV_SIDE_WANT_ON or TV_SIDE_WANT_OFF for as long as the other
 * end is silent: a time limit is the caller's own.
 */

/*
 * The state of a side. Another number reads as TV_SIDE_OFF; a call that
 * refuses hands it back as it was given.
 */
#define TV_SIDE_OFF 0
#define TV_SIDE_ON 1
#define TV_SIDE_WANT_OFF 2
#define TV_SIDE_WANT_OFF_THEN_ON 3
#define TV_SIDE_WANT_ON 4
#define TV_SIDE_WANT_ON_THEN_OFF 5

/* The two sides of one option. */
typedef struct tv_pair {
	uint8_t ours;  /* said by WILL and WONT from us */
	uint8_t other; /* said by WILL and WONT from the other end */
} tv_pair_t;

typedef struct tv_sides {
	tv_pair_t binary;
	tv_pair_t suppress_go_ahead;
	tv_pair_t terminal;
	tv_pair_t records;
	tv_pair_t environ;
} tv_sides_t;

/*
 * The sides after a call. Where writes is 1 an option command is to be sent:
 * tv_write(TV_NEGOTIATION, code, option, ..). Else code and option are 0.
 */
typedef struct tv_answered {
	tv_sides_t sides;
	uint8_t number; /* a refusal, TV_NOTE_OFF_ANSWERED_BY_ON, or 0 */
	uint8_t writes; /* 1 or 0 */
	uint8_t code;   /* TV_WILL to TV_DONT */
	uint8_t option;
} tv_answered_t;

/*
 * The sides after a call that puts its command on a line, and the place on the
 * line after it; the same place, where nothing was to be sent.
 */
typedef struct tv_sent {
	tv_sides_t sides;
	uint8_t number; /* a refusal, TV_NOTE_OFF_ANSWERED_BY_ON, or 0 */
	size_t place;
} tv_sent_t;

/* Every side off: the state that a session begins with. Never refused. */
#define TV_STACK_SIDES_FRESH 512
extern tv_sides_t tv_sides_fresh(void);

/*
 * An option command was received: code is TV_WILL to TV_DONT. Where the other
 * end asks for on and that is open, accept decides; an option that is not
 * carried is always declined.
 * Refused by 6 where the code is no option command. 14 is a note.
 */
#define TV_STACK_SIDES_RECEIVE 512
extern tv_answered_t tv_sides_receive(tv_sides_t sides, uint8_t code,
		uint8_t option, bool accept);

/*
 * This end asks for a side, ours or the other's, to be on or off.
 * Refused by 10, 11, 12 or 13.
 */
#define TV_STACK_SIDES_REQUEST 512
extern tv_answered_t tv_sides_request(tv_sides_t sides, bool ours,
		uint8_t option, bool on);

/*
 * The same with the answer put on line at a place. Room that always suffices:
 * three bytes from that place on.
 * Refused by 5 where the place is past the end of the line; by 6 where the
 * code is no option command; by 4. 14 is a note.
 */
#define TV_STACK_OPTION_RECEIVE 512
extern tv_sent_t tv_option_receive(tv_sides_t sides, uint8_t code,
		uint8_t option, bool accept,
		uint8_t *line, size_t line_length, size_t at);

/*
 * A request with its command put on line at a place, likewise.
 * Refused by 5; by 10, 11, 12 or 13; by 4.
 */
#define TV_STACK_OPTION_REQUEST 512
extern tv_sent_t tv_option_request(tv_sides_t sides, bool ours,
		uint8_t option, bool on,
		uint8_t *line, size_t line_length, size_t at);

/*
 * What stands at a place of the other end's line: an option command is
 * answered on this end's line at a place; any other event, and the end, change
 * nothing and give 0. tv_look tells the next place to hear from.
 * Refused by 5 where either place is past its end; as tv_look; by 4.
 */
#define TV_STACK_OPTION_HEAR 512
extern tv_sent_t tv_option_hear(tv_sides_t sides,
		const uint8_t *heard, size_t heard_length, size_t from, bool accept,
		uint8_t *line, size_t line_length, size_t at);

/*
 * Environment strings: payloads of the subnegotiation of NEW-ENVIRON. A list
 * of variable records is a slice of numbers, TV_ENV_NUMBERS for each variable:
 * its kind, place and length of its name in a buffer, place and length of its
 * value, and its mark.
 */

/*
 * The first byte of a payload. TV_ENV_SEND asks for variables: a gateway makes
 * that payload itself, and no call reads it.
 */
#define TV_ENV_IS 0
#define TV_ENV_SEND 1
#define TV_ENV_INFO 2

/* The kind of a variable. */
#define TV_ENV_VAR 0
#define TV_ENV_USERVAR 3

/*
 * What stands between a name and its value, and before each byte of a name or
 * a value that is 0 to 3. tv_env_read takes the ESCs away and tv_env_write
 * puts them; in a payload that the caller makes himself he must put them, also
 * before such bytes of a server seed in SEND: a seed is random, and in one
 * session of nine the client finds no seed without them, or another one.
 */
#define TV_ENV_VALUE 1
#define TV_ENV_ESC 2

/* Numbers of a variable record, their order, and how many variables at most. */
#define TV_ENV_NUMBERS 6
#define TV_ENV_KIND 0
#define TV_ENV_NAME_AT 1
#define TV_ENV_NAME_LENGTH 2
#define TV_ENV_VALUE_AT 3
#define TV_ENV_VALUE_LENGTH 4
#define TV_ENV_MARK 5
#define TV_ENV_VARIABLES 64

/*
 * The mark of a variable. One sent without VALUE is undefined, and sign-on
 * takes it as absent; one with VALUE and nothing after it is defined and empty.
 * Any mark but TV_ENV_DEFINED reads as undefined.
 */
#define TV_ENV_DEFINED 0
#define TV_ENV_UNDEFINED 1

/* A payload that was read. */
typedef struct tv_payload {
	uint8_t refusal;
	uint8_t first;    /* TV_ENV_IS or TV_ENV_INFO */
	size_t variables; /* records, of TV_ENV_NUMBERS each */
	size_t bytes;     /* of their names and values */
} tv_payload_t;

/* Where a value stands in a buffer; at and length are 0 where there is none. */
typedef struct tv_value {
	uint8_t present; /* 1 or 0; an undefined variable is not there */
	size_t at;
	size_t length;
} tv_value_t;

/*
 * Reads a payload. Names and values go back to back to the front of bytes,
 * without their ESCs, and the variable records to the front of numbers. A
 * variable with no VALUE has the mark TV_ENV_UNDEFINED and no bytes of a value,
 * with their place right after its name. Room that always suffices: 1,024
 * bytes, and TV_ENV_NUMBERS * TV_ENV_VARIABLES numbers. numbers_length counts
 * numbers, not bytes. The same kind and name twice is 25, defined or not.
 * Refused by 3; 20; 21 to 24 by the first fault from the left; 25; 4.
 */
#define TV_STACK_ENV_READ 20480
extern tv_payload_t tv_env_read(const uint8_t *payload, size_t payload_length,
		uint8_t *bytes, size_t bytes_length,
		size_t *numbers, size_t numbers_length);

/*
 * Writes a payload to the front of out: the first byte, then the variables
 * that the records have over bytes, with ESCs where they are needed, and
 * without VALUE where one is undefined. Given back the first byte, the bytes
 * and the records that tv_env_read gave, it writes the payload that was read,
 * byte for byte. Numbers after the last whole record are not looked at. Room
 * that always suffices: 1,024 bytes.
 * Refused by 20, 27, 21, 24, 25, 3 and 4, each over the whole list first.
 */
#define TV_STACK_ENV_WRITE 512
extern tv_written_t tv_env_write(uint8_t first,
		const uint8_t *bytes, size_t bytes_length,
		const size_t *numbers, size_t numbers_length,
		uint8_t *out, size_t out_length);

/*
 * Where the value stands of the first variable of a kind and name that is
 * defined. Never refused. The place is the record's own: records that
 * tv_env_read set keep within bytes, those that a caller made up may not.
 */
#define TV_STACK_ENV_VALUE 512
extern tv_value_t tv_env_value(const uint8_t *bytes, size_t bytes_length,
		const size_t *numbers, size_t numbers_length, size_t kind,
		const uint8_t *name, size_t name_length);

/*
 * Listing: a stream as text, a line for each event, each with its line end.
 */

/*
 * Room that always suffices for a line, with its line end; and for the whole
 * listing of a stream of up to TV_LIST_LIMIT bytes.
 */
#define TV_LINE_ROOM 67
#define TV_LIST_LIMIT 65536
#define TV_LIST_ROOM 851984

/*
 * The line of what stands at a place, to the front of out: also END, and a
 * refusal of tv_look as text. Room that always suffices: TV_LINE_ROOM.
 * Refused by 4 alone.
 */
#define TV_STACK_LINE 1024
extern tv_written_t tv_line(const uint8_t *line, size_t line_length, size_t at,
		uint8_t *out, size_t out_length);

/*
 * The whole listing of a stream, to the front of out, up to END or the first
 * refusal. Room that suffices for up to TV_LIST_LIMIT bytes: TV_LIST_ROOM.
 * Refused by 4 alone.
 */
#define TV_STACK_LIST 1024
extern tv_written_t tv_list(const uint8_t *line, size_t line_length,
		uint8_t *out, size_t out_length);

/*
 * Profile table: a version byte 1, then records, names strictly ascending: by
 * their ASCII bytes, a name before those that it begins ("A" before "A1"
 * before "AB"; a table sorted by EBCDIC, digits last, is refused by 32). Names
 * are in ASCII. A name that is given to a call may have lower case, which is
 * raised first; one that stands in a table may not, and is refused by 31.
 */

/* The longest name of a profile or a device, and of a system. */
#define TV_NAME_LIMIT 10
#define TV_SYSTEM_NAME_LIMIT 8

/* The version byte, the most profiles, and room for any record and table. */
#define TV_TABLE_VERSION 1
#define TV_TABLE_PROFILES 500
#define TV_RECORD_ROOM 42
#define TV_TABLE_ROOM 21001

/* How many profiles a table has. */
typedef struct tv_table {
	uint8_t refusal;
	size_t profiles;
} tv_table_t;

/* The profile of a name; where present is 0 the table has none. */
typedef struct tv_found {
	uint8_t refusal;
	uint8_t present;     /* 1 or 0, as the next two */
	uint8_t enabled;
	uint8_t des_allowed;
	size_t at;           /* the place of its record in the table */
} tv_found_t;

/* Checks a whole table. Refused by 30; 31 or 32 by the first bad record. */
#define TV_STACK_TABLE_CHECK 512
extern tv_table_t tv_table_check(const uint8_t *table, size_t table_length);

/* The profile of a name. Refused as tv_table_check, by the whole table. */
#define TV_STACK_TABLE_FIND 512
extern tv_found_t tv_table_find(const uint8_t *table, size_t table_length,
		const uint8_t *name, size_t name_length);

/*
 * Writes the record of a name and a password to the front of out. A password
 * has 1 to TV_PASSWORD_LIMIT bytes of 20X to 7EX, case kept. One that has no
 * DES token (tv_des_token) clears des_allowed and gives a token of zeros. Room
 * that always suffices: TV_RECORD_ROOM.
 * Refused by 33, 34 and 4.
 */
#define TV_STACK_MAKE_RECORD 2048
extern tv_written_t tv_make_record(const uint8_t *name, size_t name_length,
		const uint8_t *password, size_t password_length,
		bool enabled, bool des_allowed,
		uint8_t *out, size_t out_length);

/*
 * Tokens and substitutes. Seeds, and what DES gives, are numbers of eight
 * bytes, the first byte highest; what SHA-1 gives is twenty bytes.
 */

#define TV_DES_LENGTH 8
#define TV_SHA_LENGTH 20

/* The longest password, and the longest that has a DES token. */
#define TV_PASSWORD_LIMIT 128
#define TV_DES_PASSWORD_LIMIT 10

/* A token or a substitute of DES. */
typedef struct tv_block {
	uint8_t refusal;
	uint64_t value;
} tv_block_t;

/*
 * The DES token of a name and a password, which has 1 to TV_DES_PASSWORD_LIMIT
 * of the characters of names, lower case raised. Refused by 33 and 34.
 */
#define TV_STACK_DES_TOKEN 1536
extern tv_block_t tv_des_token(const uint8_t *name, size_t name_length,
		const uint8_t *password, size_t password_length);

/* The substitute that a client sends for a DES token. Refused by 33. */
#define TV_STACK_DES_SUBSTITUTE 1536
extern tv_block_t tv_des_substitute(uint64_t token,
		const uint8_t *name, size_t name_length,
		uint64_t server_seed, uint64_t client_seed);

/*
 * The SHA-1 token of a name and a password as in tv_make_record, to the front
 * of out. Room that always suffices: TV_SHA_LENGTH. Refused by 33, 34 and 4.
 */
#define TV_STACK_SHA_TOKEN 1536
extern tv_written_t tv_sha_token(const uint8_t *name, size_t name_length,
		const uint8_t *password, size_t password_length,
		uint8_t *out, size_t out_length);

/*
 * The substitute that a client sends for a SHA-1 token, to the front of out.
 * Room that always suffices: TV_SHA_LENGTH.
 * Refused by 31 where the token has not twenty bytes, then by 33 and 4.
 */
#define TV_STACK_SHA_SUBSTITUTE 1536
extern tv_written_t tv_sha_substitute(
		const uint8_t *token, size_t token_length,
		const uint8_t *name, size_t name_length,
		uint64_t server_seed, uint64_t client_seed,
		uint8_t *out, size_t out_length);

/*
 * Sign-on and start-up.
 */

/* A verdict; 0 stands beside a refusal only. */
#define TV_VERDICT_PANEL 1      /* no sign-on offered: show the panel */
#define TV_VERDICT_NOT_KNOWN 2  /* 0002 */
#define TV_VERDICT_DISABLED 3   /* 0003 */
#define TV_VERDICT_FAILED 4     /* 0004 */
#define TV_VERDICT_GRANT 5

/* The length of a seed, the server's and the client's; of a response record. */
#define TV_SEED_LENGTH 8
#define TV_RESPONSE_LENGTH 73

typedef struct tv_judged {
	uint8_t refusal;
	uint8_t verdict; /* TV_VERDICT_... */
} tv_judged_t;

/*
 * The verdict on a payload of NEW-ENVIRON, by this session's server seed and
 * the profile table. A variable without VALUE counts as absent.
 * Refused by 35; 30 to 32; 3; 20 to 25.
 */
#define TV_STACK_VERDICT 24576
extern tv_judged_t tv_verdict(const uint8_t *server_seed, size_t seed_length,
		const uint8_t *table, size_t table_length,
		const uint8_t *payload, size_t payload_length);

/*
 * Why a verdict is what it is: the tens are its TV_VERDICT_... . 0 stands
 * beside a refusal only. Later reasons will get numbers between these, in the
 * tens of their verdict: branch by the tens, and name those that you show.
 * docs/REASONS.md has the words of each, and what to do.
 */
#define TV_REASON_PANEL_ASKED_FOR 10
#define TV_REASON_NO_USER 21
#define TV_REASON_BAD_NAME 22
#define TV_REASON_NOT_IN_THE_TABLE 23
#define TV_REASON_DISABLED 31
#define TV_REASON_SEED_VARIABLE_MISSING 41
#define TV_REASON_SUBSTITUTE_MISSING 42
#define TV_REASON_SEED_LENGTH 43
#define TV_REASON_SUBSTITUTE_LENGTH 45
#define TV_REASON_DES_NOT_ALLOWED 46
#define TV_REASON_CLEAR_PASSWORD_MALFORMED 48
#define TV_REASON_TOKEN_DIFFERS 49
#define TV_REASON_GRANTED 50

typedef struct tv_explained {
	uint8_t refusal;
	uint8_t reason; /* TV_REASON_... */
} tv_explained_t;

/*
 * Why tv_verdict judges a payload as it does: the first reason that holds, in
 * the order of their numbers. It is for the operator's desk: what a client is
 * told is the verdict's digits, which say less.
 * Refused as tv_verdict is: by 35; 30 to 32; 3; 20 to 25.
 */
#define TV_STACK_EXPLAIN 24576
extern tv_explained_t tv_explain(const uint8_t *server_seed, size_t seed_length,
		const uint8_t *table, size_t table_length,
		const uint8_t *payload, size_t payload_length);

/*
 * Writes the start-up response record to the front of out: 8902 for a device
 * fault, else the code of the verdict. A number that is no verdict reads as
 * TV_VERDICT_FAILED. A system name has 1 to 8 bytes, a device name 1 to 10.
 * Room that always suffices: TV_RESPONSE_LENGTH. Refused by 36 and 4.
 */
#define TV_STACK_RESPONSE 512
extern tv_written_t tv_response(bool device_fault, uint8_t verdict,
		const uint8_t *system, size_t system_length,
		const uint8_t *device, size_t device_length,
		uint8_t *out, size_t out_length);

/*
 * Printer frames and the ledger, which holds at most one record that the
 * device has not printed yet. The caller keeps it.
 */

#define TV_OUTBOUND 1 /* from the server */
#define TV_INBOUND 2  /* from the client */

#define TV_OPERATION_PRINT 1 /* print, or print complete */
#define TV_OPERATION_CLEAR 2

/*
 * Whether the ledger holds a record. Another number reads as TV_LEDGER_IDLE,
 * where it begins; a call that refuses hands it back as it was given.
 */
#define TV_LEDGER_IDLE 0
#define TV_LEDGER_HOLDING 1

/* What became of a frame; 0 stands beside a refusal only. */
#define TV_RECEIPT_HELD 1             /* a print: print its record */
#define TV_RECEIPT_CLEARED 2          /* a clear: the held record is void */
#define TV_RECEIPT_NOTHING_TO_CLEAR 3 /* a clear, and none was held */

/* The length of a print complete record. */
#define TV_COMPLETE_LENGTH 10

/* What a frame says. The marks are 1 or 0; places are in the frame. */
typedef struct tv_frame {
	uint8_t refusal;
	uint8_t direction; /* TV_OUTBOUND or TV_INBOUND */
	uint8_t operation; /* TV_OPERATION_... */
	uint8_t diagnostics_included;
	uint8_t error;
	uint8_t intervention_required;
	uint8_t ready;
	uint8_t first_of_chain;
	uint8_t last_of_chain;
	size_t diagnostics_at;
	size_t diagnostics_length;
	size_t data_at;
	size_t data_length;
} tv_frame_t;

/* The ledger. At first it is what tv_ledger_fresh hands out. */
typedef struct tv_ledger {
	uint8_t held; /* 1 or 0; another number reads as 0 */
} tv_ledger_t;

/* The ledger after a frame. */
typedef struct tv_taken {
	tv_ledger_t ledger;
	uint8_t refusal;
	uint8_t receipt; /* TV_RECEIPT_... */
} tv_taken_t;

/* The ledger after a completion. */
typedef struct tv_completed {
	tv_ledger_t ledger;
	uint8_t refusal;
	size_t length; /* how many bytes were written */
} tv_completed_t;

/* What a frame says. Refused by the first of 40 to 45. */
#define TV_STACK_READ_FRAME 512
extern tv_frame_t tv_read_frame(const uint8_t *frame, size_t frame_length);

/* A ledger that holds nothing: what a session begins with. Never refused. */
#define TV_STACK_LEDGER_FRESH 512
extern tv_ledger_t tv_ledger_fresh(void);

/*
 * The ledger is given a frame from the line. Only TV_RECEIPT_HELD is printed.
 * Refused by 40 to 45, 52 and 50.
 */
#define TV_STACK_LEDGER_TAKE 512
extern tv_taken_t tv_ledger_take(tv_ledger_t ledger,
		const uint8_t *frame, size_t frame_length);

/*
 * The device has printed what is held: the print complete record goes to the
 * front of out, and the ledger is idle. Room that always suffices:
 * TV_COMPLETE_LENGTH.
 * Refused by 51 and 4; after 4 the record is held still.
 */
#define TV_STACK_LEDGER_COMPLETE 512
extern tv_completed_t tv_ledger_complete(tv_ledger_t ledger,
		uint8_t *out, size_t out_length);

/*
 * The layout that the archive was built with.
 */

#if defined(__cplusplus)
#define TV_LAYOUT(holds) static_assert(holds, "layout of the archive")
#elif defined(__STDC_VERSION__) && __STDC_VERSION__ >= 201112L
#define TV_LAYOUT(holds) _Static_assert(holds, "layout of the archive")
#endif

#ifdef TV_LAYOUT
#define TV_AT(type, field, place) TV_LAYOUT(offsetof(type, field) == (place))
TV_LAYOUT(sizeof(size_t) == 8);
TV_LAYOUT(sizeof(bool) == 1);

TV_LAYOUT(sizeof(tv_event_t) == 24);
TV_AT(tv_event_t, what, 0);
TV_AT(tv_event_t, refusal, 1);
TV_AT(tv_event_t, code, 2);
TV_AT(tv_event_t, option, 3);
TV_AT(tv_event_t, length, 8);
TV_AT(tv_event_t, next, 16);

TV_LAYOUT(sizeof(tv_record_t) == 24);
TV_AT(tv_record_t, complete, 0);
TV_AT(tv_record_t, refusal, 1);
TV_AT(tv_record_t, length, 8);
TV_AT(tv_record_t, next, 16);

TV_LAYOUT(sizeof(tv_written_t) == 16);
TV_AT(tv_written_t, refusal, 0);
TV_AT(tv_written_t, length, 8);

TV_LAYOUT(sizeof(tv_reader_t) == 16);
TV_AT(tv_reader_t, stage, 0);
TV_AT(tv_reader_t, code, 1);
TV_AT(tv_reader_t, count, 8);

TV_LAYOUT(sizeof(tv_fed_t) == 48);
TV_AT(tv_fed_t, reader, 0);
TV_AT(tv_fed_t, number, 16);
TV_AT(tv_fed_t, what, 17);
TV_AT(tv_fed_t, code, 18);
TV_AT(tv_fed_t, option, 19);
TV_AT(tv_fed_t, taken, 24);
TV_AT(tv_fed_t, length, 32);
TV_AT(tv_fed_t, payload, 40);

TV_LAYOUT(sizeof(tv_pair_t) == 2);
TV_AT(tv_pair_t, ours, 0);
TV_AT(tv_pair_t, other, 1);

TV_LAYOUT(sizeof(tv_sides_t) == 10);
TV_AT(tv_sides_t, binary, 0);
TV_AT(tv_sides_t, suppress_go_ahead, 2);
TV_AT(tv_sides_t, terminal, 4);
TV_AT(tv_sides_t, records, 6);
TV_AT(tv_sides_t, environ, 8);

TV_LAYOUT(sizeof(tv_answered_t) == 14);
TV_AT(tv_answered_t, sides, 0);
TV_AT(tv_answered_t, number, 10);
TV_AT(tv_answered_t, writes, 11);
TV_AT(tv_answered_t, code, 12);
TV_AT(tv_answered_t, option, 13);

TV_LAYOUT(sizeof(tv_sent_t) == 24);
TV_AT(tv_sent_t, sides, 0);
TV_AT(tv_sent_t, number, 10);
TV_AT(tv_sent_t, place, 16);

TV_LAYOUT(sizeof(tv_payload_t) == 24);
TV_AT(tv_payload_t, refusal, 0);
TV_AT(tv_payload_t, first, 1);
TV_AT(tv_payload_t, variables, 8);
TV_AT(tv_payload_t, bytes, 16);

TV_LAYOUT(sizeof(tv_value_t) == 24);
TV_AT(tv_value_t, present, 0);
TV_AT(tv_value_t, at, 8);
TV_AT(tv_value_t, length, 16);

TV_LAYOUT(sizeof(tv_table_t) == 16);
TV_AT(tv_table_t, refusal, 0);
TV_AT(tv_table_t, profiles, 8);

TV_LAYOUT(sizeof(tv_found_t) == 16);
TV_AT(tv_found_t, refusal, 0);
TV_AT(tv_found_t, present, 1);
TV_AT(tv_found_t, enabled, 2);
TV_AT(tv_found_t, des_allowed, 3);
TV_AT(tv_found_t, at, 8);

TV_LAYOUT(sizeof(tv_block_t) == 16);
TV_AT(tv_block_t, refusal, 0);
TV_AT(tv_block_t, value, 8);

TV_LAYOUT(sizeof(tv_judged_t) == 2);
TV_AT(tv_judged_t, refusal, 0);
TV_AT(tv_judged_t, verdict, 1);

TV_LAYOUT(sizeof(tv_explained_t) == 2);
TV_AT(tv_explained_t, refusal, 0);
TV_AT(tv_explained_t, reason, 1);

TV_LAYOUT(sizeof(tv_frame_t) == 48);
TV_AT(tv_frame_t, refusal, 0);
TV_AT(tv_frame_t, direction, 1);
TV_AT(tv_frame_t, operation, 2);
TV_AT(tv_frame_t, diagnostics_included, 3);
TV_AT(tv_frame_t, error, 4);
TV_AT(tv_frame_t, intervention_required, 5);
TV_AT(tv_frame_t, ready, 6);
TV_AT(tv_frame_t, first_of_chain, 7);
TV_AT(tv_frame_t, last_of_chain, 8);
TV_AT(tv_frame_t, diagnostics_at, 16);
TV_AT(tv_frame_t, diagnostics_length, 24);
TV_AT(tv_frame_t, data_at, 32);
TV_AT(tv_frame_t, data_length, 40);

TV_LAYOUT(sizeof(tv_ledger_t) == 1);
TV_AT(tv_ledger_t, held, 0);

TV_LAYOUT(sizeof(tv_taken_t) == 3);
TV_AT(tv_taken_t, ledger, 0);
TV_AT(tv_taken_t, refusal, 1);
TV_AT(tv_taken_t, receipt, 2);

TV_LAYOUT(sizeof(tv_completed_t) == 16);
TV_AT(tv_completed_t, ledger, 0);
TV_AT(tv_completed_t, refusal, 1);
TV_AT(tv_completed_t, length, 8);
#undef TV_AT
#undef TV_LAYOUT
#endif

#ifdef __cplusplus
}
#endif

#endif
