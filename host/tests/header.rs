//! The header, as C and as C++: compiled without a warning, linked with the proved libraries, and its record laid out as the library's.

use std::io::Write;
use std::path::Path;
use std::process::{Command, Stdio};

use udgornwy::ffi::Board;

/// Writes the last entry of the schedule, finds the request's ID, and looks for the entry where the header has it. Then keeps the request, and
/// what is left of it without its last byte, in a capture of two boards: written at once and in turn, rewritten, taken apart, and counted through
/// a window. A capture of version 1 is rewritten too: a board with a zero ID and an empty request. Of a capture with a response its table is
/// written, whole and through a window, and read.
const PROGRAM: &str = r#"
#include <stdio.h>
#include <string.h>
#include "udgornwy.h"
#include "udgornwy.h"

enum { IDS = 2 * UDGORNWY_ID, COUNTS = 2 * UDGORNWY_NUMBERS, ROOM = UDGORNWY_LONGEST_HEAD + 2 * UDGORNWY_LONGEST_RECORD };

static const uint16_t indexes[] = {0, 1};
static const uint8_t ids[IDS] = {1, 2}, directions[] = {UDGORNWY_REQUEST, UDGORNWY_RESPONSE};
static const uint32_t counters[] = {1000, 4000000000};
static const uint8_t version_1[6 + UDGORNWY_ID + 8] = {'V', 'L', 'G', 1, 0, 1};

static size_t written_in_turn(uint8_t *capture, const uint8_t *packet, const uint16_t *lengths)
{
    size_t end = udgornwy_write_head(capture, ROOM, ids, IDS).length;
    for (int i = 0; i < 2; i++)
        end += udgornwy_write_record(capture + end, ROOM - end, 2, indexes[i], directions[i], counters[i], packet, lengths[i]).length;
    return end;
}

static void take_apart(const uint8_t *end, size_t left, uint16_t version, uint16_t boards)
{
    udgornwy_capture_record record;
    do {
        record = udgornwy_next_record(end - left, left, version, boards);
        printf("%u: %u %u %lu %u %u\n", record.kind, record.direction, record.index, (unsigned long)record.counter,
               (unsigned)record.packet, (unsigned)record.rest);
        left = record.rest;
    } while (record.kind == UDGORNWY_RECORD);
}

/* The last byte is counted in a second turn. */
static void count(uint8_t *window, size_t records, size_t end)
{
    static uint8_t text[UDGORNWY_LONGEST_SUMMARY];
    uint64_t counts[COUNTS] = {0};
    uint8_t last = window[end - 1];
    udgornwy_reply first = udgornwy_count_window(counts, COUNTS, window, ROOM, records, end - 1, 2, 2);
    window[first.length] = last;
    udgornwy_reply second = udgornwy_count_window(counts, COUNTS, window, ROOM, 0, first.length + 1, 2, 2);
    udgornwy_reply shown = udgornwy_show_counts(text, sizeof text, counts, COUNTS, 53);
    printf("%u %u, %u %u, %u: %.*s", first.refusal, (unsigned)first.length, second.refusal, (unsigned)second.length, shown.refusal,
           (int)shown.length, (const char *)text);
}

/* Whole, and without its last byte. */
static void rewrite(const uint8_t *capture, size_t size)
{
    uint8_t buffer[ROOM];
    udgornwy_reply cut = udgornwy_rewrite_capture(buffer, ROOM, capture, size - 1);
    udgornwy_reply whole = udgornwy_rewrite_capture(buffer, ROOM, capture, size);
    udgornwy_opened opened = udgornwy_open_capture(buffer, whole.length);
    printf("%u %u, %u %u, %u %u: %d\n", cut.refusal, (unsigned)cut.length, whole.refusal, (unsigned)whole.length,
           opened.version, opened.boards, size == whole.length && memcmp(capture, buffer, size) == 0);
}

static void captures(const uint8_t *packet, size_t size)
{
    const uint16_t lengths[] = {(uint16_t)size, (uint16_t)(size - 1)};
    uint8_t packets[2 * UDGORNWY_LONGEST_PACKET], whole[ROOM], parts[ROOM];
    memcpy(packets, packet, size);
    memcpy(packets + size, packet, size - 1);
    udgornwy_reply written = udgornwy_write_capture(whole, ROOM, ids, IDS, indexes, 2, directions, 2, counters, 2, lengths, 2,
                                                    packets, 2 * size - 1);
    size_t end = written_in_turn(parts, packet, lengths);
    udgornwy_opened opened = udgornwy_open_capture(whole, written.length);
    udgornwy_opened cut = udgornwy_open_capture(whole, opened.records - 1);
    printf("%u %u: %d\n", written.refusal, (unsigned)end, end == written.length && memcmp(whole, parts, end) == 0);
    printf("%u: %u %u %u %u, %u: %u %u\n", opened.refusal, opened.version, opened.boards, (unsigned)opened.ids,
           (unsigned)opened.records, cut.refusal, cut.version, cut.boards);
    rewrite(whole, end);
    rewrite(version_1, sizeof version_1);
    take_apart(whole + end, end - opened.records, opened.version, opened.boards);
    take_apart(whole + end, end - opened.records, 3, opened.boards);
    count(whole, opened.records, end);
}

/* The header, and the rows of all but the last byte and then of the rest. */
static size_t written_in_windows(uint8_t *table, size_t room, uint8_t *window, size_t end)
{
    static uint8_t text[UDGORNWY_TEXT_PER_BYTE * ROOM];
    udgornwy_opened opened = udgornwy_open_capture(window, end);
    size_t length = udgornwy_table_header(table, room).length;
    uint8_t last = window[end - 1];
    udgornwy_exported_rows rows = udgornwy_export_window(text, sizeof text, window, ROOM, opened.records, end - 1, ids, IDS, 2, 2, 0);
    memcpy(table + length, text, rows.length);
    length += rows.length;
    printf("%u %u %u %u %u, ", rows.refusal, rows.ending, (unsigned)rows.length, (unsigned)rows.refused, (unsigned)rows.left);
    window[rows.left] = last;
    rows = udgornwy_export_window(text, sizeof text, window, ROOM, 0, rows.left + 1, ids, IDS, 2, 2, rows.refused);
    memcpy(table + length, text, rows.length);
    printf("%u %u %u %u %u, ", rows.refusal, rows.ending, (unsigned)rows.length, (unsigned)rows.refused, (unsigned)rows.left);
    printf("%u %u\n", udgornwy_export_window(text, 39, window, ROOM, 0, 1, ids, IDS, 2, 2, 0).refusal,
           udgornwy_export_window(text, sizeof text, window, ROOM, 0, 1, ids, IDS, 3, 2, 0).refusal);
    return length + rows.length;
}

static void read_table(const uint8_t *table, size_t size)
{
    udgornwy_opened_table opened = udgornwy_open_table(table, size);
    udgornwy_opened_table cut = udgornwy_open_table(table, 47);
    const uint8_t *end = table + size;
    size_t left = opened.rest;
    uint64_t line = opened.line;
    udgornwy_table_row row;
    printf("%u %u %u, %u %u %u\n", opened.refusal, (unsigned)line, (unsigned)left, cut.refusal, (unsigned)cut.line, (unsigned)cut.rest);
    do {
        uint8_t id[UDGORNWY_ID] = {0}, value[UDGORNWY_LONGEST_VALUE] = {0};
        row = udgornwy_next_row(end - left, left, line);
        if (row.kind == UDGORNWY_ROW) {
            udgornwy_read_hex(id, sizeof id, end - row.board, 2 * sizeof id);
            udgornwy_reply read = udgornwy_read_hex(value, sizeof value, end - row.value, row.value - row.value_end);
            printf("%u %u, %u %u: %u %u\n", id[0], id[1], read.refusal, (unsigned)read.length, value[0], value[1]);
        }
        printf("%u: %u %u %u %lu %u %u\n", row.kind, row.page, row.low, row.refusal, (unsigned long)row.counter, (unsigned)row.line,
               (unsigned)row.rest);
        left = row.rest;
        line = row.line;
    } while (row.kind == UDGORNWY_ROW);
}

/* Of a response with a known and an unknown parameter, and of a packet that is no response. */
static void tables(const uint8_t *request, size_t size)
{
    uint8_t packets[2 * UDGORNWY_LONGEST_PACKET] = {0xFD, 0xFD, 2, UDGORNWY_ID}, capture[ROOM], whole[1000], parts[1000];
    static const uint8_t block[] = {0, 6, 0xFE, 2, 0x63, 0x46, 0, 0xFD, 0x65};
    const size_t length = 4 + UDGORNWY_ID + sizeof block + 2;
    const uint16_t lengths[] = {(uint16_t)length, (uint16_t)size};
    static const uint8_t responses[] = {UDGORNWY_RESPONSE, UDGORNWY_RESPONSE};
    memcpy(packets + 4 + UDGORNWY_ID, block, sizeof block);
    unsigned sum = 0;
    for (size_t i = 2; i < length - 2; i++)
        sum += packets[i];
    packets[length - 2] = (uint8_t)sum;
    packets[length - 1] = (uint8_t)(sum >> 8);
    memcpy(packets + length, request, size);
    size_t end = udgornwy_write_capture(capture, ROOM, ids, IDS, indexes, 2, responses, 2, counters, 2, lengths, 2, packets, length + size).length;
    udgornwy_exported exported = udgornwy_export_table(whole, sizeof whole, capture, end);
    udgornwy_exported cut = udgornwy_export_table(parts, sizeof parts, capture, end - 1);
    udgornwy_exported no_room = udgornwy_export_table(parts, exported.length - 1, capture, end);
    printf("%u %u %u %u, %u %u %u %u, %u %u %u %u\n", exported.refusal, exported.capture, (unsigned)exported.length, (unsigned)exported.refused,
           cut.refusal, cut.capture, (unsigned)cut.length, (unsigned)cut.refused, no_room.refusal, no_room.capture, (unsigned)no_room.length,
           (unsigned)no_room.refused);
    size_t in_windows = written_in_windows(parts, sizeof parts, capture, end);
    printf("%d %u\n%.*s", in_windows == exported.length && memcmp(whole, parts, in_windows) == 0, udgornwy_table_header(parts, 47).refusal,
           (int)exported.length, (const char *)whole);
    read_table(whole, exported.length);
    whole[exported.length - 3] = 'x';
    read_table(whole, exported.length);
}

/* 0025 is a row of the VENTO Expert alone, and its 0064 has three bytes. No record is of type 6. */
static void units(const uint8_t *id, const uint8_t *password)
{
    static const uint8_t types[] = {1, UDGORNWY_MICRA, UDGORNWY_EXPERT_A50, UDGORNWY_EXPERT_DUO, UDGORNWY_EXPERT_A30, 6, 255};
    static const uint8_t value[] = {59, 23, 180};
    printf("%u %u %u\n", (unsigned)offsetof(udgornwy_board, unit), (unsigned)offsetof(udgornwy_board, store),
           (unsigned)offsetof(udgornwy_board, schedule));
    for (size_t i = 0; i < sizeof types; i++) {
        udgornwy_board board;
        udgornwy_result made = udgornwy_set_up(id, UDGORNWY_ID, password, 1, UDGORNWY_CLIENT, types[i]);
        unsigned humidity = udgornwy_measure(made.board, 0x0025, value, 1).refusal;
        unsigned countdown = udgornwy_measure(made.board, 0x0064, value, sizeof value).refusal;
        board = made.board;
        board.unit = 6;
        printf("%u: %u %u %u, %u %u, %u\n", types[i], made.refusal, made.board.unit, made.board.id[0], humidity, countdown,
               udgornwy_measure(board, 0x0064, value, sizeof value).refusal);
    }
    printf("%u %u\n", udgornwy_set_up(id, UDGORNWY_ID, password, 1, 3, 6).refusal, udgornwy_set_up(id, 15, password, 1, 1, 6).refusal);
}

int main(void)
{
    static const uint8_t id[UDGORNWY_ID] = {1}, password[] = {'1'}, functions[] = {2};
    static const uint8_t value[] = {UDGORNWY_DAYS, UDGORNWY_PERIODS, 5, 30, 59, 23};
    static const uint16_t numbers[] = {0x0077}, lengths[] = {sizeof value};
    uint8_t packet[UDGORNWY_LONGEST_PACKET], response[UDGORNWY_LONGEST_PACKET];
    udgornwy_result result = udgornwy_set_up(id, sizeof id, password, sizeof password, UDGORNWY_CLIENT, UDGORNWY_MICRA);
    udgornwy_reply request = udgornwy_write(packet, sizeof packet, id, sizeof id, password, sizeof password,
                                            functions, 1, numbers, 1, lengths, 1, value, sizeof value);
    udgornwy_parts parts = udgornwy_parse(packet, request.length);
    udgornwy_parts cut = udgornwy_parse(packet, request.length - 1);
    udgornwy_reply answer = udgornwy_packet(&result.board, packet, request.length, response, sizeof response);
    udgornwy_entry last = result.board.schedule[UDGORNWY_DAYS - 1][UDGORNWY_PERIODS - 1];
    printf("%d: %u %u %u, %u %u %u %u\n", (int)sizeof(udgornwy_board), result.refusal, request.refusal, answer.refusal,
           last.speed, last.temperature, last.minute, last.hour);
    printf("%u: %u %u, %u: %u\n", parts.refusal, packet[parts.places.id], (unsigned)parts.places.end, cut.refusal, (unsigned)cut.places.end);
    units(id, password);
    captures(packet, request.length);
    tables(packet, request.length);
    return 0;
}
"#;

/// Where the record has its unit type, its rows and its schedule; then for each type the refusal of its set-up, the record's type and its ID's first
/// byte, the refusals of 0025 and 0064, and that of a record of no type; and which refusals come before 23.
const UNITS: &str = "\
26 27 254
1: 23 2 0, 30 31, 70
2: 0 2 1, 30 31, 70
3: 0 3 1, 0 0, 70
4: 0 4 1, 0 0, 70
5: 0 5 1, 0 0, 70
6: 23 2 0, 30 31, 70
255: 23 2 0, 30 31, 70
22 20
";

/// The capture: its length, its head, what it and the one of version 1 are rewritten as, its records, none in another version, and its summary.
const CAPTURES: &str = "\
0 124: 1
0: 2 2 7 39, 52: 0 0
53 82, 0 124, 2 2: 1
53 23, 0 32, 2 1: 0
0: 0 0 1000 76 42
0: 1 1 4000000000 33 0
1: 0 0 0 0 0
4: 0 0 0 0 0
0 41, 0 0, 0: 0,0,1
1,4,1
refused,53
";

/// A table's length and count, without the capture's last byte too, and with a byte of room too few; by windows; its text; what it reads as, and
/// with a quote that is none.
const TABLES: &str = "\
0 0 174 1, 0 53 174 0, 54 0 0 0
0 0 126 0 42, 0 0 0 1 0, 54 51
1 54
\"board\",\"direction\",\"counter\",\"number\",\"value\"\r
\"x01020000000000000000000000000000\",\"1\",\"1000\",\"0x0063\",\"x4600\"\r
\"x01020000000000000000000000000000\",\"1\",\"1000\",\"0x0065\",\"x\"\r
0 2 126, 60 1 0
1 2, 0 2: 70 0
0: 0 99 0 1000 3 61
1 2, 0 0: 0 0
0: 0 101 0 1000 4 0
1: 0 0 0 0 0 0
0 2 126, 60 1 0
1 2, 0 2: 70 0
0: 0 99 0 1000 3 61
2: 0 0 61 0 3 0
";

fn compiled(compiler: &str, language: &str, standard: &str) -> String {
    let host = Path::new(env!("CARGO_MANIFEST_DIR"));
    let program = Path::new(env!("CARGO_TARGET_TMPDIR")).join(format!("header_{standard}"));
    let mut process = Command::new(compiler)
        .arg(format!("-std={standard}"))
        .args(["-Wall", "-Wextra", "-Wpedantic", "-Werror", "-I"])
        .arg(host.join("../include"))
        .args(["-x", language, "-", "-x", "none"])
        .arg(concat!(env!("UDGORNWY_ARCHIVES"), "/libfirmware.a"))
        .arg(concat!(env!("UDGORNWY_ARCHIVES"), "/libdataset.a"))
        .arg("-o")
        .arg(&program)
        .stdin(Stdio::piped())
        .spawn()
        .unwrap_or_else(|_| panic!("a compiler named {compiler}"));
    let mut source = process.stdin.take().expect("a piped stream");
    source.write_all(PROGRAM.as_bytes()).expect("the program");
    drop(source);
    assert!(process.wait().expect("the compiler ends").success());
    let output = Command::new(program).output().expect("the program runs");
    String::from_utf8_lossy(&output.stdout).into_owned()
}

fn expected() -> String {
    let board = std::mem::size_of::<Board>();
    assert_eq!(board, 366);
    format!("{board}: 0 0 0, 5 30 59 23\n0: 1 32, 4: 0\n{UNITS}{CAPTURES}{TABLES}")
}

#[test]
fn the_header_is_c() {
    for standard in ["c11", "c17"] {
        assert_eq!(compiled("cc", "c", standard), expected());
    }
}

#[test]
fn the_header_is_cpp() {
    for standard in ["c++11", "c++17"] {
        assert_eq!(compiled("c++", "c++", standard), expected());
    }
}
