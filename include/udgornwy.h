/*
 * Udgornwy: the controller board of a Micra 100 WiFi or a VENTO Expert unit, the tool that writes its requests and reads its responses,
 * captures of their packets, and tables of what captures report.
 *
 * For C (C11) and C++ (C++11). Link target/staticlib/libfirmware.a, which `./build firmware` writes, and for the calls on captures
 * and tables target/staticlib/libdataset.a, which `./build dataset` writes; with --gc-sections only what is called comes along. They allocate
 * nothing, keep nothing between calls and call nothing but memcpy, memmove and memset.
 *
 * The archives are for x86-64 alone, with the instructions of x86-64-v2. A board of another kind needs the toolchain to grow first.
 *
 * For every call:
 *  - A slice is a pointer and a count. The pointer must not be null, also where the count is 0. What a call writes to, record or buffer,
 *    must not overlap another argument, nor be used by another thread meanwhile.
 *  - A refusal is a number above 0. Where several apply, the first in the order listed is given.
 *  - A refused call leaves the record and every buffer as they were. Only with 53, udgornwy_count_window has counted and
 *    udgornwy_rewrite_capture has rewritten what stands before the fault.
 *  - Values of several bytes have the low byte first.
 */
#ifndef UDGORNWY_H
#define UDGORNWY_H

#include <stddef.h>
#include <stdint.h>

#ifdef __cplusplus
#define UDGORNWY_ASSERT static_assert
extern "C" {
#else
#define UDGORNWY_ASSERT _Static_assert
#endif

enum {
    UDGORNWY_PORT = 4000,           /* the board's UDP port */
    UDGORNWY_ID = 16,               /* bytes of an ID */
    UDGORNWY_PASSWORD = 8,          /* bytes of the longest password */
    UDGORNWY_STORE = 227,           /* bytes of the rows' values; those of a VENTO Expert take fewer */
    UDGORNWY_DAYS = 7,              /* of the weekly schedule, Monday first */
    UDGORNWY_PERIODS = 4,           /* of a day */
    UDGORNWY_ENTRY = 4,             /* bytes of a period */
    UDGORNWY_BOARD = UDGORNWY_ID + UDGORNWY_PASSWORD + 3 + UDGORNWY_STORE + UDGORNWY_DAYS * UDGORNWY_PERIODS * UDGORNWY_ENTRY,
    UDGORNWY_LONGEST_PACKET = 256,  /* also the room that a response and a request need */
    UDGORNWY_LONGEST_LISTING = 1753,
    UDGORNWY_CLIENT = 1,            /* the modes */
    UDGORNWY_ACCESS_POINT = 2,
    UDGORNWY_MICRA = 2,             /* the unit types: Micra 100 WiFi */
    UDGORNWY_EXPERT_A50 = 3,        /* VENTO Expert A50-1, A85-1 and A100-1 */
    UDGORNWY_EXPERT_DUO = 4,        /* VENTO Expert Duo A30-1 */
    UDGORNWY_EXPERT_A30 = 5         /* VENTO Expert A30 */
};

/* A period of the weekly schedule, as parameter 0x0077 of a Micra has it after its day and its period. */
typedef struct {
    uint8_t speed;        /* 1 to 5, 0 standby */
    uint8_t temperature;  /* 15 to 30 whole degrees, 0 ventilation only */
    uint8_t minute, hour; /* when the period ends */
} udgornwy_entry;

/*
 * A board's record. It is made by udgornwy_set_up and changed by udgornwy_packet and udgornwy_measure. It may be copied byte for byte, also
 * to flash and back: each call looks at the record that it is given, and refuses with 70 one that no board can have.
 */
typedef struct {
    uint8_t id[UDGORNWY_ID];
    uint8_t password[UDGORNWY_PASSWORD]; /* the first `size` bytes */
    uint8_t size;
    uint8_t mode;                        /* the mode in force */
    uint8_t unit;                        /* the unit type: which rows there are, and where they stand in the store */
    uint8_t store[UDGORNWY_STORE];
    udgornwy_entry schedule[UDGORNWY_DAYS][UDGORNWY_PERIODS]; /* of a Micra; on the other types any bytes, which no call looks at */
} udgornwy_board;

/* What set-up and a measurement answer: keep the board also where they are refused. */
typedef struct {
    udgornwy_board board;
    uint16_t refusal; /* 0: not refused */
} udgornwy_result;

/* What a call that writes a buffer answers. */
typedef struct {
    uint16_t refusal; /* 0: not refused */
    size_t length;    /* bytes written to the buffer's start, the rest stays; 0 where refused, but for a capture rewritten in part */
} udgornwy_reply;

/* Where the parts of a packet stand in its bytes. */
typedef struct {
    size_t id;         /* 16 bytes from here */
    size_t password;   /* from here up to function */
    size_t function;   /* FUNC, one byte */
    size_t block, end; /* the data block, from the one up to the other */
} udgornwy_places;

/* What a packet that is taken apart comes to. */
typedef struct {
    uint16_t refusal;       /* 0: not refused */
    udgornwy_places places; /* all 0 where refused */
} udgornwy_parts;

/* The library lays its structs out so: bytes without gaps, then a number at the next place that its size divides. */
UDGORNWY_ASSERT(sizeof(udgornwy_entry) == UDGORNWY_ENTRY, "an entry has no gaps");
UDGORNWY_ASSERT(sizeof(udgornwy_board) == UDGORNWY_BOARD, "a record has no gaps");
UDGORNWY_ASSERT(offsetof(udgornwy_board, unit) == UDGORNWY_ID + UDGORNWY_PASSWORD + 2, "the unit type follows the mode");
UDGORNWY_ASSERT(offsetof(udgornwy_board, store) == UDGORNWY_ID + UDGORNWY_PASSWORD + 3, "the rows follow the unit type");
UDGORNWY_ASSERT(offsetof(udgornwy_result, refusal) == (UDGORNWY_BOARD + 1) / 2 * 2, "the refusal stands at the next even place");
UDGORNWY_ASSERT(sizeof(udgornwy_result) == (UDGORNWY_BOARD + 1) / 2 * 2 + 2, "nothing follows the refusal");
UDGORNWY_ASSERT(offsetof(udgornwy_reply, length) == sizeof(size_t), "the refusal takes the room of a length");
UDGORNWY_ASSERT(sizeof(udgornwy_reply) == 2 * sizeof(size_t), "nothing follows the length");
UDGORNWY_ASSERT(offsetof(udgornwy_parts, places) == sizeof(size_t), "the refusal takes the room of a place");
UDGORNWY_ASSERT(sizeof(udgornwy_parts) == 6 * sizeof(size_t), "nothing follows the places");

/* ---- Packets ---- */

/*
 * Takes a packet of any length apart, a request or a response: the check that udgornwy_packet, udgornwy_read and udgornwy_list make of it
 * first, each with these refusals.
 * Refusals:
 *    2  packet under 24 or over 256 bytes
 *    3  it does not begin with FD FD
 *    4  checksum differs
 *    5  TYPE or ID size differs
 *    6  password size over 8, or no room for FUNC and checksum after it
 */
udgornwy_parts udgornwy_parse(const uint8_t *packet, size_t packet_length);

/* ---- The board ---- */

/*
 * Makes the start record of an ID, a password, a mode and a unit type.
 * Refusals:
 *   20  the ID has not 16 bytes, or is DEFAULT_DEVICEID
 *   21  the password has more than 8 bytes, or one that is not of 0-9, a-z, A-Z
 *   22  the mode is neither 1 (client) nor 2 (access point)
 *   23  the unit type is none of 2 (Micra), 3, 4 and 5 (VENTO Expert)
 * The board is then that of a zero ID, an empty password, mode client and unit type 2.
 */
udgornwy_result udgornwy_set_up(const uint8_t *id, size_t id_length, const uint8_t *password, size_t password_length, uint8_t mode,
                                uint8_t unit);

/*
 * Takes one UDP payload of any length, makes the changes that its commands call for in the record, and writes the response, if there is
 * one.
 * response needs 256 bytes. Send its first `length` bytes to the packet's sender; with length 0, refused or not, send nothing.
 * Refusals:
 *   70  the record is not one that set-up and calls leave: its ID, password, mode or unit type is one that set-up refuses, a row of the unit
 *       type or an entry of a Micra's schedule is outside its set, or 0x007C or 0x00B9 is not the record's own ID or unit type
 *    1  response under 256 bytes
 *    2 to 6  as for udgornwy_parse
 *    7  ID is neither the board's nor DEFAULT_DEVICEID
 *    8  not a search, and the password differs
 *    9  FUNC not 1 to 5
 *   10  data block malformed
 *   11  a search with a function other than 1
 *   12  the response would exceed 256 bytes
 */
udgornwy_reply udgornwy_packet(udgornwy_board *board, const uint8_t *packet, size_t packet_length, uint8_t *response, size_t response_length);

/*
 * The record with a measured value in a read-only row of its unit type. A measured temperature of a Micra is in signed tenths of a degree,
 * two bytes: -5.0 degrees is CE FF.
 * Refusals, with the board that was given:
 *   70  the record is not one that set-up and calls leave: its ID, password, mode or unit type is one that set-up refuses, a row of the unit
 *       type or an entry of a Micra's schedule is outside its set, or 0x007C or 0x00B9 is not the record's own ID or unit type
 *   30  the number is no read-only row of the unit type, or is 0x007C or 0x00B9
 *   31  the value has not the row's length
 */
udgornwy_result udgornwy_measure(udgornwy_board board, uint16_t number, const uint8_t *value, size_t value_length);

/* ---- The tool ---- */

/*
 * Writes the request packet of a list of commands. Command i has function functions[i] (1 read, 2 write, 3 write and report, 4 raise,
 * 5 lower), parameter numbers[i] and a value of lengths[i] bytes; the values stand one after the other. The three counts are the same.
 * A read of a Micra's weekly schedule, 0x0077, has a value: a day (1 to 7) and a period (1 to 4).
 * buffer needs 256 bytes. The ID may be DEFAULT_DEVICEID.
 * Refusals:
 *    1  buffer under 256 bytes
 *   40  the ID has not 16 bytes
 *   21  the password has more than 8 bytes, or one that is not of 0-9, a-z, A-Z
 *   41  the counts differ, or the lengths do not add up to values_length
 *   42  a command with a function outside 1 to 5, a number whose low byte is above FB, a value over 255 bytes, or no value under 2 or 3
 *   43  the packet would exceed 256 bytes
 */
udgornwy_reply udgornwy_write(uint8_t *buffer, size_t buffer_length, const uint8_t *id, size_t id_length, const uint8_t *password,
                              size_t password_length, const uint8_t *functions, size_t functions_count, const uint16_t *numbers,
                              size_t numbers_count, const uint16_t *lengths, size_t lengths_count, const uint8_t *values,
                              size_t values_length);

/*
 * Judges a packet as the response to a request with this ID and password. Having asked by DEFAULT_DEVICEID, it takes every ID.
 * Answers 0, or
 *   40  the ID expected has not 16 bytes
 *   21  the password expected has more than 8 bytes, or one that is not of 0-9, a-z, A-Z
 *    2 to 6  as for udgornwy_parse
 *    7  ID not the one asked for
 *    8  password not the one sent
 *    9  FUNC not 06
 *   10  data block malformed
 */
uint16_t udgornwy_read(const uint8_t *packet, size_t packet_length, const uint8_t *id, size_t id_length, const uint8_t *password, size_t password_length);

/*
 * Writes the listing of a response, whoever sent it: the line "number,value" and a line for each report ("0x0002,03", bytes in
 * stored order, or "0x0101,unknown"), or only "refused,N" with N of 2 to 6, 9 or 10. Lines end in LF; there is no byte 0 at the end.
 * text needs the listing's own length; 1753 bytes are enough for every packet.
 * Refusal:
 *    1  the listing does not fit the text
 */
udgornwy_reply udgornwy_list(uint8_t *text, size_t text_length, const uint8_t *packet, size_t packet_length);

/* ---- Captures: the calls of libdataset.a ---- */

/*
 * A capture keeps packets as they were sent, damaged ones too: a head with the IDs of its boards, and then records, each with one packet.
 * Version 1 has 1 to 16 boards, version 2 has 1 to 1,000. Both are read, version 2 is written.
 *
 * A CAPTURE BEARS THE PASSWORDS OF ITS REQUESTS, in plain. Keep it as one keeps passwords.
 */
enum {
    UDGORNWY_MOST_BOARDS = 1000,       /* of version 2, and so of any */
    UDGORNWY_LONGEST_HEAD = 16007,
    UDGORNWY_LONGEST_RECORD = 265,     /* 264 in version 1 */
    UDGORNWY_NUMBERS = 11,             /* counts of a board: of the numbers 0 to 10 */
    UDGORNWY_LONGEST_SUMMARY = 308011, /* room for every text of 1,000 boards' counts */
    UDGORNWY_REQUEST = 0,              /* the directions */
    UDGORNWY_RESPONSE = 1,
    UDGORNWY_RECORD = 0,               /* the kinds of what stands first: a record */
    UDGORNWY_RECORDS_END = 1,          /* nothing, no record is left */
    UDGORNWY_RECORD_CUT = 2,           /* the start of a record: refusal 53, where no more bytes come */
    UDGORNWY_RECORD_WRONG = 3,         /* a field outside its range: refusal 53 */
    UDGORNWY_VERSION_WRONG = 4         /* the version given is neither 1 nor 2: refusal 51 */
};

/* The head of a capture. */
typedef struct {
    uint16_t refusal; /* 0: not refused; else all behind it is 0 */
    uint16_t version; /* 1 or 2 */
    uint16_t boards;  /* so many IDs, and an index is below it */
    size_t ids;       /* 16 bytes each from here */
    size_t records;   /* from here on */
} udgornwy_opened;

/* What stands first in what is left of a capture's records. */
typedef struct {
    uint8_t kind;      /* with any other than UDGORNWY_RECORD all behind it is 0 */
    uint8_t direction;
    uint16_t index;    /* of the board */
    uint32_t counter;  /* milliseconds */
    size_t packet;     /* so many bytes are left where the packet starts */
    size_t rest;       /* and so many after it, where the next record starts */
} udgornwy_capture_record;

UDGORNWY_ASSERT(offsetof(udgornwy_opened, version) == 2, "the version follows the refusal");
UDGORNWY_ASSERT(offsetof(udgornwy_opened, boards) == 4, "the board count follows the version");
UDGORNWY_ASSERT(offsetof(udgornwy_opened, ids) == sizeof(size_t), "refusal, version and board count take the room of a place");
UDGORNWY_ASSERT(sizeof(udgornwy_opened) == 3 * sizeof(size_t), "nothing follows the places");
UDGORNWY_ASSERT(offsetof(udgornwy_capture_record, direction) == 1, "the direction follows the kind");
UDGORNWY_ASSERT(offsetof(udgornwy_capture_record, index) == 2, "the index follows the direction");
UDGORNWY_ASSERT(offsetof(udgornwy_capture_record, counter) == 4, "the counter follows the index");
UDGORNWY_ASSERT(offsetof(udgornwy_capture_record, packet) == 8, "a count of bytes follows the counter");
UDGORNWY_ASSERT(sizeof(udgornwy_capture_record) == 8 + 2 * sizeof(size_t), "nothing follows the counts");

/*
 * Opens a capture: all of its bytes, or the first 16,007 or more.
 * Refusals:
 *   50  it does not begin with VLG
 *   51  the version is neither 1 nor 2, or is cut short
 *   52  the board count is not 1 to 16 in version 1 or 1 to 1,000 in version 2, or the head is cut short
 */
udgornwy_opened udgornwy_open_capture(const uint8_t *capture, size_t capture_length);

/*
 * Takes the first record of what is left of a capture of this version and of so many boards, at first all from `records` on, and then the
 * last `rest` bytes again and again. The packet stands from where `packet` bytes are left to where `rest` bytes are left. It is not judged.
 */
udgornwy_capture_record udgornwy_next_record(const uint8_t *rest, size_t rest_length, uint16_t version, uint16_t boards);

/*
 * Writes the head of a capture of the boards with these IDs, 16 bytes each, one after another. The records go behind it, one after another.
 * Refusals:
 *   52  the bytes of the IDs are no multiple of 16, or make no board, or more than 1,000
 *   54  the buffer is shorter than the head; 16,007 bytes are enough
 */
udgornwy_reply udgornwy_write_head(uint8_t *buffer, size_t buffer_length, const uint8_t *ids, size_t ids_length);

/*
 * Writes a record of a capture of so many boards.
 * Refusals:
 *   52  boards not 1 to 1,000
 *   53  the index is not below boards, the direction is above 1, or the packet has over 256 bytes
 *   54  the buffer is shorter than the record; 265 bytes are enough
 */
udgornwy_reply udgornwy_write_record(uint8_t *buffer, size_t buffer_length, uint16_t boards, uint16_t index, uint8_t direction,
                                     uint32_t counter, const uint8_t *packet, size_t packet_length);

/*
 * Writes a capture: the head of these IDs, and the records. Record i has index indexes[i], direction directions[i], counter counters[i] and a
 * packet of lengths[i] bytes; the packets stand one after the other. The four counts are the same.
 * Refusals:
 *   52  as for udgornwy_write_head
 *   53  the counts differ, or the lengths do not add up to packets_length, or a record is one that udgornwy_write_record refuses with 53
 *   54  the buffer is shorter than the capture
 */
udgornwy_reply udgornwy_write_capture(uint8_t *buffer, size_t buffer_length, const uint8_t *ids, size_t ids_length, const uint16_t *indexes,
                                      size_t indexes_count, const uint8_t *directions, size_t directions_count, const uint32_t *counters,
                                      size_t counters_count, const uint16_t *lengths, size_t lengths_count, const uint8_t *packets,
                                      size_t packets_length);

/*
 * Rewrites a capture of either version in version 2, with the same IDs and records.
 * buffer needs the length of what is written: that of the capture, and for version 1 a byte more in the head and in each record.
 * capture_length + capture_length / 8 bytes are enough.
 * Refusals:
 *   50 to 52  as for udgornwy_open_capture
 *   54  the buffer is shorter than what is to be written
 *   53  a record is cut short, or has a field outside its range: what stands before it is rewritten, and `length` is the length of that
 */
udgornwy_reply udgornwy_rewrite_capture(uint8_t *buffer, size_t buffer_length, const uint8_t *capture, size_t capture_length);

/*
 * To rewrite a capture of any length in version 2 through a window of 16,007 bytes or more:
 *  1. Read until the window has 16,007 bytes or the capture ends, and open what was read. Where that is refused, go to 5 with that number.
 *  2. Write the head with udgornwy_write_head, of the 16 * `boards` bytes from `ids` on.
 *  3. Take the first record with udgornwy_next_record, from `records` to the end of what was read, and write it with udgornwy_write_record;
 *     then that of the last `rest` bytes, and so on to a kind other than UDGORNWY_RECORD. Where that is UDGORNWY_RECORD_WRONG, go to 5 with 53.
 *  4. Move the bytes that are left to the window's start. Read more bytes behind them, and do 3 again, from 0 on. Where no more come, go to 5
 *     with 53 if any are left, else with 0.
 *  5. With 50 to 52 nothing was written; with 53, what stands before the fault; with 0, all.
 */

/*
 * To sum up a capture of any length through a window of 16,007 bytes or more, with 1000 * 11 counts that are 0 at first:
 *  1. Read until the window has 16,007 bytes or the capture ends, and open what was read. Where that is refused, go to 4 with that number.
 *  2. Count with udgornwy_count_window, from `records` to the end of what was read. Where that is refused, go to 4 with 53.
 *  3. Its `length` bytes that are left stand at the window's start. Read more bytes behind them, and do 2 again, from 0 on. Where no more
 *     come, go to 4 with 53 if any are left, else with 0.
 *  4. Show the counts with udgornwy_show_counts and that number.
 */

/*
 * Counts the records of a capture of this version and of so many boards that stand in the window from start to end, or to the window's end
 * where that comes first. A packet of board i that is judged with n is counted at counts[i * 11 + n], if there is one; a full count stays.
 * n is 0, or what refuses the packet first: 2 to 6 as for udgornwy_parse, then 9 and 10, as for udgornwy_packet of a request and
 * udgornwy_read of a response.
 * The length answered is that of the bytes left, the start of a record, which are moved to the window's start.
 * Refusals:
 *   51  the version is neither 1 nor 2
 *   53  a record with a field outside its range: those before it are counted
 */
udgornwy_reply udgornwy_count_window(uint64_t *counts, size_t counts_count, uint8_t *window, size_t window_length, size_t start, size_t end,
                                     uint16_t version, uint16_t boards);

/*
 * Writes counts as text: the line "index,refusal,count" for each that is not 0, ascending, and then "refused,N" where the refusal N is not 0.
 * Lines end in LF; there is no byte 0 at the end.
 * text needs the text's own length; 308,011 bytes are enough for 1000 * 11 counts.
 * Refusal:
 *    1  the text does not fit
 */
udgornwy_reply udgornwy_show_counts(uint8_t *text, size_t text_length, const uint64_t *counts, size_t counts_count, uint8_t refusal);

/* ---- Tables: more calls of libdataset.a ---- */

/*
 * A table has what the accepted responses of a capture report, as text for a spreadsheet (RFC 4180): a header, and a line for each report in
 * order, of five fields in quotes. Lines end in CR LF; there is no byte 0 at the end.
 *
 *   "board","direction","counter","number","value"
 *   "x00000000000000000000000000000000","1","1003","0x0002","x03"
 *
 * The board is the capture's, by its index. ID and value have an x and two uppercase digits for each byte, the value of an unknown parameter has the x
 * alone. The board's password is not in it, but a report of 0x0096 holds the one of the Wi-Fi network.
 */
enum {
    UDGORNWY_TABLE_HEADER = 48,    /* bytes of the header */
    UDGORNWY_TEXT_PER_BYTE = 40,   /* of rows, for each byte of records: always enough */
    UDGORNWY_LONGEST_VALUE = 255,  /* bytes of a value, each with two digits */
    UDGORNWY_ROW = 0,              /* the kinds of what stands first: a row */
    UDGORNWY_ROWS_END = 1,         /* nothing, no line is left */
    UDGORNWY_ROW_REFUSED = 2       /* a line that is refused */
};

/* What the export of a capture comes to. */
typedef struct {
    uint16_t refusal; /* 0: not refused; else all behind it is 0 */
    uint16_t capture; /* the refusal of the capture, 50 to 53, 0 for none */
    size_t length;    /* of the table */
    uint64_t refused; /* so many responses are refused and left out */
} udgornwy_exported;

/* What the export of a part of a capture comes to. */
typedef struct {
    uint16_t refusal; /* 0: not refused; else all behind it is 0 */
    uint16_t ending;  /* 53: a record with a field outside its range; else 0 */
    size_t length;    /* of the rows */
    uint64_t refused; /* so many responses are refused so far */
    size_t left;      /* so many bytes, the start of a record, stand at the window's start */
} udgornwy_exported_rows;

/* The header of a table. */
typedef struct {
    uint16_t refusal; /* 0: not refused */
    uint64_t line;    /* the number of the next line; where refused, of the header, 1 */
    size_t rest;      /* so many bytes are left after the header; 0 where refused */
} udgornwy_opened_table;

/* What stands first in what is left of a table. */
typedef struct {
    uint8_t kind;      /* with any other than UDGORNWY_ROW all behind it is 0, but for the refusal and its line */
    uint8_t page;      /* the parameter's number: its high byte, */
    uint8_t low;       /* and its low byte */
    uint16_t refusal;
    uint32_t counter;  /* milliseconds */
    uint64_t line;     /* the number of the next line; where refused, of the line at fault */
    size_t board;      /* so many bytes are left where the 32 digits of the ID start, */
    size_t value;      /* where the digits of the value start, */
    size_t value_end;  /* and where they end: there are none for an unknown parameter */
    size_t rest;       /* so many are left after the line, where the next starts */
} udgornwy_table_row;

UDGORNWY_ASSERT(offsetof(udgornwy_exported, capture) == 2, "the capture's refusal follows the call's");
UDGORNWY_ASSERT(offsetof(udgornwy_exported, length) == sizeof(size_t), "both refusals take the room of a length");
UDGORNWY_ASSERT(offsetof(udgornwy_exported, refused) == 2 * sizeof(size_t), "a count follows the length");
UDGORNWY_ASSERT(sizeof(udgornwy_exported) == 2 * sizeof(size_t) + 8, "nothing follows the count");
UDGORNWY_ASSERT(offsetof(udgornwy_exported_rows, ending) == 2, "the ending follows the refusal");
UDGORNWY_ASSERT(offsetof(udgornwy_exported_rows, length) == sizeof(size_t), "refusal and ending take the room of a length");
UDGORNWY_ASSERT(offsetof(udgornwy_exported_rows, refused) == 2 * sizeof(size_t), "a count follows the length");
UDGORNWY_ASSERT(offsetof(udgornwy_exported_rows, left) == 2 * sizeof(size_t) + 8, "what is left follows the count");
UDGORNWY_ASSERT(sizeof(udgornwy_exported_rows) == 3 * sizeof(size_t) + 8, "nothing follows what is left");
UDGORNWY_ASSERT(offsetof(udgornwy_opened_table, line) == 8, "the refusal takes the room of a line's number");
UDGORNWY_ASSERT(offsetof(udgornwy_opened_table, rest) == 16, "a count of bytes follows the line's number");
UDGORNWY_ASSERT(sizeof(udgornwy_opened_table) == 16 + sizeof(size_t), "nothing follows the count");
UDGORNWY_ASSERT(offsetof(udgornwy_table_row, page) == 1, "the page follows the kind");
UDGORNWY_ASSERT(offsetof(udgornwy_table_row, low) == 2, "the low byte follows the page");
UDGORNWY_ASSERT(offsetof(udgornwy_table_row, refusal) == 4, "the refusal stands at the next even place");
UDGORNWY_ASSERT(offsetof(udgornwy_table_row, counter) == 8, "the counter follows the refusal");
UDGORNWY_ASSERT(offsetof(udgornwy_table_row, line) == 16, "the line's number stands at the next place that 8 divides");
UDGORNWY_ASSERT(offsetof(udgornwy_table_row, board) == 24, "a count of bytes follows the line's number");
UDGORNWY_ASSERT(sizeof(udgornwy_table_row) == 24 + 4 * sizeof(size_t), "nothing follows the counts");
#undef UDGORNWY_ASSERT

/*
 * Writes the header of a table.
 * Refusal:
 *   54  the buffer has under 48 bytes
 */
udgornwy_reply udgornwy_table_header(uint8_t *buffer, size_t buffer_length);

/*
 * Writes the table of a whole capture. Of one that is refused with 53 it has what stands before the fault, of one that is refused with 50 to 52
 * the header alone; `capture` says so. Requests are left out.
 * Refusal:
 *   54  the buffer is shorter than the table; 48 + 40 * capture_length bytes are enough
 */
udgornwy_exported udgornwy_export_table(uint8_t *buffer, size_t buffer_length, const uint8_t *capture, size_t capture_length);

/*
 * To write the table of a capture of any length through a window of 16,007 bytes or more, with a text of 40 times as many:
 *  1. Write the header with udgornwy_table_header.
 *  2. Read until the window has 16,007 bytes or the capture ends, and open what was read. Where that is refused, go to 5 with that number.
 *     Keep a copy of the 16 * `boards` bytes from `ids` on: the window is read into again.
 *  3. Write rows with udgornwy_export_window, from `records` to the end of what was read, with 0 responses refused before. Where its
 *     `ending` is 53, go to 5 with that.
 *  4. Its `left` bytes stand at the window's start. Read more bytes behind them, and do 3 again, from 0 on, with its `refused`. Where no more
 *     come, go to 5 with 53 if any are left, else with 0.
 *  5. The last `refused` counts the responses that are left out, and the number is the capture's refusal, 0 for none.
 */

/*
 * Writes the rows of the records of a capture with these IDs, of this version and of so many boards, that stand in the window from start to
 * end, or to the window's end where that comes first. The bytes left, the start of a record, are moved to the window's start. `refused` responses
 * were refused before; a full count stays.
 * Refusals:
 *   51  the version is neither 1 nor 2
 *   54  the text is shorter than 40 bytes for each byte from start to end
 */
udgornwy_exported_rows udgornwy_export_window(uint8_t *text, size_t text_length, uint8_t *window, size_t window_length, size_t start, size_t end,
                                              const uint8_t *ids, size_t ids_length, uint16_t version, uint16_t boards, uint64_t refused);

/*
 * Reads the header of a table: all of its bytes are given.
 * Refusals, at line 1:
 *   60  the header differs, or is missing
 *   61  no CR LF ends it
 */
udgornwy_opened_table udgornwy_open_table(const uint8_t *text, size_t text_length);

/*
 * Reads the first row of what is left of a table, whose line has this number: at first all but the header, by its `rest` and its `line`, and then
 * the last `rest` bytes with the next line's number again and again.
 * Refusals:
 *   61  a field is not in quotes, or no CR LF ends the line
 *   62  the line has not five fields
 *   63  a field is outside its form, a counter over 32 bits, or a value over 255 bytes
 */
udgornwy_table_row udgornwy_next_row(const uint8_t *text, size_t text_length, uint64_t line);

/*
 * Writes the bytes of pairs of uppercase digits, as those of an ID or of a value.
 * Refusal:
 *   63  a byte is none of 0-9, A-F, their count is odd, or the buffer is shorter than half of it
 */
udgornwy_reply udgornwy_read_hex(uint8_t *bytes, size_t bytes_length, const uint8_t *digits, size_t digits_length);

#ifdef __cplusplus
}
#endif

#endif
