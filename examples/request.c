/*
 * The tool in C: a request is written, a response judged and listed. The request is the guide's read of 0x0001 and 0x0002; the response
 * is the guide's too, and stands in for what a socket would bring.
 *
 *   make -C examples && target/examples/request
 */
#include <stdio.h>
#include <stdlib.h>

#include "udgornwy.h"

static const uint8_t id[UDGORNWY_ID] = {0};
static const uint8_t password[] = {'1', '1', '1', '1'};

static const uint8_t incoming[] = {
    0xFD, 0xFD, 0x02, 0x10, 0,    0,    0,    0,    0,    0,    0,    0,    0,    0,    0,    0,
    0,    0,    0,    0,    0x04, 0x31, 0x31, 0x31, 0x31, 0x06, 0x01, 0x00, 0x02, 0x03, 0xE6, 0x00,
};

/* A read has no value: its length is 0, and no byte of the values belongs to it. */
static udgornwy_reply write_read(uint8_t *packet, size_t room)
{
    static const uint8_t functions[] = {1, 1};
    static const uint16_t numbers[] = {0x0001, 0x0002};
    static const uint16_t lengths[] = {0, 0};
    static const uint8_t values[1];
    return udgornwy_write(packet, room, id, sizeof id, password, sizeof password, functions, 2, numbers, 2, lengths, 2, values, 0);
}

static int refused(const char *what, unsigned number)
{
    printf("%s refused: %u\n", what, number);
    return EXIT_FAILURE;
}

int main(void)
{
    uint8_t packet[UDGORNWY_LONGEST_PACKET];
    udgornwy_reply request = write_read(packet, sizeof packet);
    if (request.refusal != 0)
        return refused("request", request.refusal);
    for (size_t i = 0; i < request.length; i++)
        printf("%02X%s", packet[i], i + 1 < request.length ? " " : "\n");

    uint16_t refusal = udgornwy_read(incoming, sizeof incoming, id, sizeof id, password, sizeof password);
    if (refusal != 0)
        return refused("response", refusal);
    uint8_t text[UDGORNWY_LONGEST_LISTING];
    udgornwy_reply listing = udgornwy_list(text, sizeof text, incoming, sizeof incoming);
    if (listing.refusal != 0)
        return refused("listing", listing.refusal);
    fwrite(text, 1, listing.length, stdout);
    return EXIT_SUCCESS;
}
