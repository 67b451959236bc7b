/* Makes one call on a server between two stores to `mark`, so that a trace shows what the call reads. It is server 7 of 8, with writes
 * of each of the first servers in turn. Arguments: the call, how many writes are held, how many of them the checkpoint holds (the
 * own ones past it are in the log), and how many servers write. */
#include <stdlib.h>
#include <string.h>

#include "ssaldorip.h"

enum { SERVERS = SSALDORIP_SERVERS, RECORD = SSALDORIP_RECORD_SIZE };
enum { OWN = SERVERS - 1, CHECKPOINT_AT = 16, LOG_AT = CHECKPOINT_AT + SSALDORIP_HISTORY_SIZE };

uint8_t history[SSALDORIP_HISTORY_SIZE];
volatile uint8_t mark;
static uint8_t state[SSALDORIP_STATE_SIZE], image[SSALDORIP_IMAGE_SIZE], message[SSALDORIP_MESSAGE_MOST];
static uint8_t zero[SSALDORIP_VECTOR_SIZE], reply[SSALDORIP_READ_REPLY_SIZE];
#define SERVER state, sizeof state, history, sizeof history, image, sizeof image

static void put(uint8_t *at, unsigned number) {
    at[0] = number % 256;
    at[1] = number / 256;
}

/* How many of the first `k` writes are of a server. */
static unsigned count(unsigned k, unsigned server, unsigned writers) {
    return k / writers + (server < k % writers);
}

static void put_vector(uint8_t *at, unsigned k, unsigned writers) {
    for (unsigned i = 0; i < writers; i++)
        put(at + 2 * i, count(k, i, writers));
}

/* The message of server 0 with the whole history. */
static size_t put_message(unsigned held) {
    const unsigned header[] = {SERVERS, held, SSALDORIP_MESSAGE_HEADER, SSALDORIP_MESSAGE_HEADER + RECORD * held};
    for (unsigned i = 0; i < 4; i++)
        put(message + 2 * i, header[i]);
    memcpy(message + SSALDORIP_MESSAGE_HEADER, history, RECORD * held);
    return header[3];
}

/* A call is told by its first letter, so that telling it takes few instructions. */
static uint32_t call(char which, size_t message_len) {
    switch (which) {
    case 'r':
        return ssaldorip_read(SERVER, OWN, 0, 0, zero, sizeof zero, reply, sizeof reply);
    case 'w':
        return ssaldorip_write(SERVER, OWN, 0, 0, 1, 0, zero, sizeof zero, reply, sizeof reply);
    case 'u':
        return ssaldorip_update(SERVER, OWN, message, message_len);
    default:
        return ssaldorip_judge(SERVER);
    }
}

int main(int argc, char **argv) {
    if (argc != 5)
        return 2;
    unsigned held = strtoul(argv[2], 0, 10), kept = strtoul(argv[3], 0, 10), writers = strtoul(argv[4], 0, 10), logged = 0;
    if (held > SSALDORIP_HISTORY_WRITES || kept > held || writers < 1 || writers > SERVERS)
        return 2;
    for (unsigned k = 0; k < held; k++) {
        uint8_t *record = history + RECORD * k;
        record[0] = k % writers;
        put(record + 2, k);
        put_vector(record + 12, k + 1, writers);
        if (kept <= k && k % writers == OWN)
            memcpy(image + LOG_AT + RECORD * logged++, record, RECORD);
    }
    memcpy(image + CHECKPOINT_AT, history, RECORD * kept);
    const unsigned header[] = {SERVERS + 256 * OWN, kept, CHECKPOINT_AT, logged, LOG_AT, SSALDORIP_IMAGE_SIZE};
    for (unsigned i = 0; i < 6; i++)
        put(image + 2 * i, header[i]);
    const unsigned block[] = {SERVERS + 256 * OWN, 1, held, logged};
    for (unsigned i = 0; i < 4; i++)
        put(state + 2 * i, block[i]);
    put_vector(state + 8, held, writers);
    size_t message_len = put_message(held);
    char which = argv[1][0];

    mark = 1;
    uint32_t said = call(which, message_len);
    mark = 0;
    return said != 0;
}
