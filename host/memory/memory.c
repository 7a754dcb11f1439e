/*
 * Measures what the board needs: its record, and the deepest stack of its calls. Each call runs on a stack of its own, which is painted
 * before and looked at after. A list of calls as `reference generate` writes it comes on standard input; its setup, packet and measure
 * lines are run. The blocks that force the deepest recursion are made here.
 *
 * Exit status: 0; 1 if record and stack together reach 16 KiB; 2 if a call could not be measured.
 */
#define _GNU_SOURCE
#include <stdio.h>
#include <stdlib.h>
#include <string.h>
#include <sys/mman.h>
#include <ucontext.h>
#include <unistd.h>

#include "udgornwy.h"

enum { STACK = 65536, TARGET = 16384, ROOM = 8192 };

/* ---- The call to measure, and its answer ---- */

static udgornwy_board board;
static uint8_t first[ROOM], second[ROOM], response[1024];
static size_t first_length, second_length, response_length;
static uint8_t mode, unit;
static uint16_t number, refusal;

static void call_nothing(void)
{
}

static void call_set_up(void)
{
    udgornwy_result result = udgornwy_set_up(first, first_length, second, second_length, mode, unit);
    board = result.board;
    refusal = result.refusal;
}

static void call_packet(void)
{
    refusal = udgornwy_packet(&board, first, first_length, response, response_length).refusal;
}

static void call_measure(void)
{
    udgornwy_result result = udgornwy_measure(board, number, first, first_length);
    board = result.board;
    refusal = result.refusal;
}

/* ---- The painted stack ---- */

static ucontext_t here, there;
static uint8_t *stack;
static void (*volatile to_call)(void);

static void fail(const char *what)
{
    perror(what);
    exit(2);
}

/* A page below the stack that may not be touched ends the program where a call needs more. */
static void make_stack(void)
{
    size_t page = (size_t)sysconf(_SC_PAGESIZE);
    uint8_t *memory = mmap(NULL, page + STACK, PROT_READ | PROT_WRITE, MAP_PRIVATE | MAP_ANONYMOUS, -1, 0);
    if (memory == MAP_FAILED)
        fail("memory: no room for a stack");
    if (mprotect(memory, page, PROT_NONE) != 0)
        fail("memory: no guard below the stack");
    stack = memory + page;
}

static void run_there(void)
{
    to_call();
}

/* How many bytes of the stack are no longer as painted. */
static size_t touched(void (*call)(void), uint8_t paint)
{
    memset(stack, paint, STACK);
    if (getcontext(&there) != 0)
        fail("memory: no context");
    there.uc_stack.ss_sp = stack;
    there.uc_stack.ss_size = STACK;
    there.uc_link = &here;
    to_call = call;
    makecontext(&there, run_there, 0);
    if (swapcontext(&here, &there) != 0)
        fail("memory: no second stack");
    size_t left = 0;
    while (left < STACK && stack[left] == paint)
        left++;
    return STACK - left;
}

/* With two paints, since the deepest byte may have been given the paint's own value. */
static size_t touched_twice(void (*call)(void))
{
    udgornwy_board before = board;
    size_t one = touched(call, 0xA5);
    board = before;
    size_t other = touched(call, 0x5A);
    return one < other ? other : one;
}

/* Without what the change of stacks takes. */
static size_t depth(void (*call)(void))
{
    static size_t change;
    if (change == 0)
        change = touched_twice(call_nothing);
    return touched_twice(call) - change;
}

/* ---- The list of calls ---- */

static int digit(char character)
{
    const char *digits = "0123456789ABCDEF";
    const char *found = character == '\0' ? NULL : strchr(digits, character);
    return found == NULL ? -1 : (int)(found - digits);
}

/* Bytes in hex, `-` for none. */
static int read_bytes(const char *text, uint8_t *bytes, size_t *length)
{
    *length = 0;
    if (strcmp(text, "-") == 0)
        return 1;
    for (; *text != '\0'; text += 2) {
        int high = digit(text[0]);
        int low = high < 0 ? -1 : digit(text[1]);
        if (low < 0 || *length == ROOM)
            return 0;
        bytes[(*length)++] = (uint8_t)(16 * high + low);
    }
    return 1;
}

/* Takes a line into the call's place and says which call it is; NULL for every other line. */
static void (*read_call(char *line))(void)
{
    const char *word = strtok(line, " \n");
    const char *one = strtok(NULL, " \n");
    const char *two = strtok(NULL, " \n");
    const char *three = strtok(NULL, " \n");
    const char *four = strtok(NULL, " \n");
    if (word == NULL || one == NULL || two == NULL)
        return NULL;
    if (strcmp(word, "setup") == 0 && three != NULL) {
        mode = (uint8_t)strtoul(three, NULL, 10);
        unit = four == NULL ? UDGORNWY_MICRA : (uint8_t)strtoul(four, NULL, 10);
        return read_bytes(one, first, &first_length) && read_bytes(two, second, &second_length) ? call_set_up : NULL;
    }
    if (strcmp(word, "packet") == 0) {
        response_length = strtoul(one, NULL, 10);
        return response_length <= sizeof response && read_bytes(two, first, &first_length) ? call_packet : NULL;
    }
    if (strcmp(word, "measure") == 0) {
        number = (uint16_t)strtoul(one, NULL, 16);
        return read_bytes(two, first, &first_length) ? call_measure : NULL;
    }
    return NULL;
}

struct deepest {
    size_t bytes, calls;
};

static void note(struct deepest *deepest, size_t bytes)
{
    deepest->calls++;
    if (deepest->bytes < bytes)
        deepest->bytes = bytes;
}

static void run_list(struct deepest *set_ups, struct deepest *packets, struct deepest *measurements)
{
    char *line = NULL;
    size_t room = 0;
    while (getline(&line, &room, stdin) > 0) {
        void (*call)(void) = read_call(line);
        if (call == call_set_up)
            note(set_ups, depth(call));
        if (call == call_packet)
            note(packets, depth(call));
        if (call == call_measure)
            note(measurements, depth(call));
    }
    free(line);
}

/* ---- The deepest recursion ---- */

enum { BLOCK = 232 };

/* Two FF items, two FC items, and a read of 0001 with its length. */
static const char FF[] = "\xFF\x00\xFF\x00", FC[] = "\xFC\x01\xFC\x01", FE[] = "\xFE\x01\x01\x00";

static const uint8_t own_id[] = "002D6E1B34565815";
static const uint8_t default_id[] = "DEFAULT_DEVICEID";

/* A read of 256 bytes without a password, whose block repeats four bytes and ends in four of its own. */
static void make_packet(const uint8_t *id, const char *repeated, const char *last)
{
    uint16_t sum = 0;
    memcpy(first, "\xFD\xFD\x02\x10", 4);
    memcpy(first + 4, id, UDGORNWY_ID);
    first[20] = 0;
    first[21] = 1;
    for (size_t i = 0; i < BLOCK; i += 4)
        memcpy(first + 22 + i, i + 4 < BLOCK ? repeated : last, 4);
    for (size_t i = 2; i < 22 + BLOCK; i++)
        sum = (uint16_t)(sum + first[i]);
    first[22 + BLOCK] = (uint8_t)(sum & 0xFF);
    first[23 + BLOCK] = (uint8_t)(sum >> 8);
    first_length = 24 + BLOCK;
}

static size_t forced(const char *what, const uint8_t *id, const char *repeated, const char *last)
{
    board = udgornwy_set_up(own_id, UDGORNWY_ID, second, 0, UDGORNWY_CLIENT, UDGORNWY_MICRA).board;
    response_length = UDGORNWY_LONGEST_PACKET;
    make_packet(id, repeated, last);
    size_t bytes = depth(call_packet);
    if (refusal != 0) {
        fprintf(stderr, "memory: the block of %s was refused with %u\n", what, refusal);
        exit(2);
    }
    printf("    a block of %-29s %6zu bytes\n", what, bytes);
    return bytes;
}

static size_t larger(size_t one, size_t other)
{
    return one < other ? other : one;
}

int main(void)
{
    struct deepest set_ups = {0, 0}, packets = {0, 0}, measurements = {0, 0};
    make_stack();
    board = udgornwy_set_up(second, 0, second, 0, 0, 0).board;
    run_list(&set_ups, &packets, &measurements);
    if (packets.calls == 0) {
        fprintf(stderr, "memory: no packet on standard input\n");
        return 2;
    }
    printf("record %37s %6zu bytes\n", "", sizeof board);
    printf("deepest stack of\n");
    printf("    %7zu set-ups %23s %6zu bytes\n", set_ups.calls, "", set_ups.bytes);
    printf("    %7zu measurements %18s %6zu bytes\n", measurements.calls, "", measurements.bytes);
    printf("    %7zu packets %23s %6zu bytes\n", packets.calls, "", packets.bytes);
    size_t deepest = packets.bytes;
    deepest = larger(deepest, forced("FF items alone", own_id, FF, FF));
    deepest = larger(deepest, forced("FC items alone", own_id, FC, FC));
    deepest = larger(deepest, forced("FF items and a read by FE", own_id, FF, FE));
    deepest = larger(deepest, forced("FF items alone, as a search", default_id, FF, FF));
    deepest = larger(deepest, forced("FC items alone, as a search", default_id, FC, FC));
    deepest = larger(deepest, larger(set_ups.bytes, measurements.bytes));
    size_t together = sizeof board + deepest;
    printf("record and deepest stack together %10s %6zu bytes of %d at most\n", "", together, TARGET - 1);
    return together < TARGET ? 0 : 1;
}
