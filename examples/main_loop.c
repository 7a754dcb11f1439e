/*
 * A main loop for the firmware's author: one board record, here of a Micra, a packet in, its answer out, a measurement now and then.
 * A fixed list of packets stands in for the radio, and what would be sent is printed.
 *
 *   make -C examples && target/examples/main_loop
 */
#include <stdbool.h>
#include <stdio.h>
#include <stdlib.h>
#include <string.h>

#include "udgornwy.h"

/* ---- The radio's place: replace these three by the board's own ---- */

/* Each with the ID 002D6E1B34565815 and the password 1111, but for the last two. */
#define HEAD "\xFD\xFD\x02\x10"
#define OWN HEAD "002D6E1B34565815\x04" "1111"
#define ANY HEAD "DEFAULT_DEVICEID\x00"

static const struct {
    const char *what;
    const char *bytes;
    size_t length;
} incoming[] = {
    {"write speed 3, with a report", OWN "\x03\x02\x03\x4B\x04", 30},
    {"read the unit's switch and its speed", OWN "\x01\x01\x02\x47\x04", 30},
    {"write the switch, silently", OWN "\x02\x01\x01\x47\x04", 30},
    {"the same, cut by the radio", OWN "\x02\x01", 27},
    {"read the intake air temperature", OWN "\x01\x1F\x63\x04", 29},
    {"write with another password", HEAD "002D6E1B34565815\x04" "2222\x03\x02\x05\x51\x04", 30},
    {"search", ANY "\x01\x7C\xB9\xE9\x05", 26},
};

/* The next packet, if one has come. A UDP payload may be longer than any packet: 257 bytes are enough to tell. */
static bool receive(uint8_t *packet, size_t room, size_t *length)
{
    static size_t next;
    if (next == sizeof incoming / sizeof incoming[0])
        return false;
    *length = incoming[next].length < room ? incoming[next].length : room;
    memcpy(packet, incoming[next].bytes, *length);
    printf("%s:", incoming[next].what);
    next++;
    return true;
}

static void send(const uint8_t *response, size_t length)
{
    for (size_t i = 0; i < length; i++)
        printf(" %02X", response[i]);
    printf("\n");
}

/* What the sensor at the unit's inlet shows, in tenths of a degree. */
static int16_t intake_air_temperature(void)
{
    return -50;
}

/* ---- The main loop ---- */

/* A measured temperature has the low byte first. */
static void measure_intake_air(udgornwy_board *board)
{
    uint16_t tenths = (uint16_t)intake_air_temperature();
    uint8_t value[2] = {(uint8_t)(tenths & 0xFF), (uint8_t)(tenths >> 8)};
    udgornwy_result result = udgornwy_measure(*board, 0x001F, value, sizeof value);
    *board = result.board;
    if (result.refusal != 0)
        printf("measurement refused: %u\n", result.refusal);
}

static void answer(udgornwy_board *board, const uint8_t *packet, size_t length)
{
    uint8_t response[UDGORNWY_LONGEST_PACKET];
    udgornwy_reply reply = udgornwy_packet(board, packet, length, response, sizeof response);
    if (reply.refusal != 0)
        printf(" refused %u\n", reply.refusal);
    else if (reply.length == 0)
        printf(" silence\n");
    else
        send(response, reply.length);
}

int main(void)
{
    static const uint8_t id[] = "002D6E1B34565815";
    static const uint8_t password[] = "1111";
    udgornwy_result result = udgornwy_set_up(id, sizeof id - 1, password, sizeof password - 1, UDGORNWY_CLIENT, UDGORNWY_MICRA);
    if (result.refusal != 0) {
        printf("set-up refused: %u\n", result.refusal);
        return EXIT_FAILURE;
    }
    static udgornwy_board board;
    board = result.board;
    uint8_t packet[UDGORNWY_LONGEST_PACKET + 1];
    size_t length;
    while (receive(packet, sizeof packet, &length)) {
        measure_intake_air(&board);
        answer(&board, packet, length);
    }
    return EXIT_SUCCESS;
}
