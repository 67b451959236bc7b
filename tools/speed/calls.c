/* Makes one call of the archive so many times, each on the same server: state, history and image are put back before each call.
 *   calls CALL HELD CHECKPOINT TIMES
 * It is server 7 of 8, with writes of each server in turn (N = 8); own writes past the checkpoint are in the log. */
#include <stdio.h>
#include <stdlib.h>
#include <string.h>

#include "ssaldorip.h"

enum { SERVERS = 8, RECORD = 28, OWN = 7, CHECKPOINT_AT = 16, LOG_AT = 16 + 7168 };

static uint8_t state[160], history[7168], image[8976], message[7176], out[7176];
static uint8_t state0[160], history0[7168], image0[8976];
static uint8_t zero[16], reply[21], session[33], asked[16];
#define SERVER state, sizeof state, history, sizeof history, image, sizeof image

static void put(uint8_t *at, unsigned number) { at[0] = number % 256; at[1] = number / 256; }

/* The records of `count` writes, the first `turns` of all eight servers in turn, the others of the seven others in turn; of many
 * cells or of one. */
static void fill(uint8_t *b, unsigned count, unsigned turns, int one_cell) {
    unsigned v[8] = {0};
    for (unsigned k = 0; k < count; k++) {
        uint8_t *r = b + RECORD * k;
        unsigned o = k < turns ? k % 8 : (k - turns) % 7;
        v[o]++;
        r[0] = o;
        r[1] = k % 64;
        put(r + 2, one_cell ? 300 : k * 37 % 1024);
        put(r + 4, k);
        put(r + 8, k);
        for (unsigned i = 0; i < 8; i++) put(r + 12 + 2 * i, v[i]);
    }
}

int main(int argc, char **argv) {
    if (argc != 5) return 2;
    const char *which = argv[1];
    unsigned held = atoi(argv[2]), kept = atoi(argv[3]), times = atoi(argv[4]), logged = 0;
    int is_new = !strcmp(which, "update_new");
    unsigned turns = is_new ? held : 256;
    static uint8_t all[7168];
    fill(all, 256, turns, !strcmp(which, "read_one_cell"));
    memcpy(history, all, RECORD * held);
    unsigned v[8] = {0};
    for (unsigned k = 0; k < held; k++) {
        uint8_t *r = history + RECORD * k;
        v[r[0]]++;
        if (kept <= k && r[0] == OWN) memcpy(image + LOG_AT + RECORD * logged++, r, RECORD);
    }
    memcpy(image + CHECKPOINT_AT, history, RECORD * kept);
    const unsigned header[] = {SERVERS + 256 * OWN, kept, CHECKPOINT_AT, logged, LOG_AT, 8976};
    for (unsigned i = 0; i < 6; i++) put(image + 2 * i, header[i]);
    const unsigned block[] = {SERVERS + 256 * OWN, 1, held, logged};
    for (unsigned i = 0; i < 4; i++) put(state + 2 * i, block[i]);
    for (unsigned i = 0; i < 8; i++) put(state + 8 + 2 * i, v[i]);
    const unsigned mh[] = {SERVERS, 256, 8, 8 + RECORD * 256};
    for (unsigned i = 0; i < 4; i++) put(message + 2 * i, mh[i]);
    memcpy(message + 8, all, 7168);
    if (!strcmp(which, "recover")) memset(state + 2, 0, sizeof state - 2);
    session[32] = SSALDORIP_BOTH;
    for (unsigned i = 0; i < 8; i++) put(session + 2 * i, 3 * i), put(session + 16 + 2 * i, 20 - 2 * i);
    uint8_t session0[33], vector[16];
    memcpy(session0, session, 33);
    for (unsigned i = 0; i < 8; i++) put(vector + 2 * i, 10);
    memcpy(state0, state, sizeof state), memcpy(history0, history, sizeof history), memcpy(image0, image, sizeof image);
    for (unsigned t = 0; t < times; t++) {
        memcpy(state, state0, sizeof state), memcpy(history, history0, sizeof history), memcpy(image, image0, sizeof image);
        memcpy(session, session0, 33);
        uint32_t said = 0;
        if (!strcmp(which, "judge")) said = ssaldorip_judge(SERVER);
        else if (!strncmp(which, "update", 6)) said = ssaldorip_update(SERVER, OWN, message, sizeof message);
        else if (!strncmp(which, "read", 4)) said = ssaldorip_read(SERVER, OWN, 5, 300, zero, 16, reply, 21);
        else if (!strcmp(which, "write")) said = ssaldorip_write(SERVER, OWN, 5, 300, 7, 900, zero, 16, reply, 16);
        else if (!strcmp(which, "recover")) said = ssaldorip_recover(SERVER, OWN);
        else if (!strcmp(which, "status")) said = ssaldorip_status(SERVER, reply, 2);
        else if (!strcmp(which, "message")) said = ssaldorip_message(SERVER, out, sizeof out);
        else if (!strcmp(which, "look_up")) said = ssaldorip_look_up(image, sizeof image, 7, 32) < 16;
        else if (!strcmp(which, "message_check")) said = ssaldorip_message_check(message, sizeof message);
        else if (!strcmp(which, "message_write")) said = ssaldorip_message_write(8, 7, all, sizeof all, out, sizeof out);
        else if (!strcmp(which, "session_raise")) said = ssaldorip_session_raise(session, 33, vector, 16);
        else if (!strcmp(which, "session_asks")) said = ssaldorip_session_asks(session, 33, asked, 16);
        else if (!strcmp(which, "start")) said = ssaldorip_start(8, 7, SERVER);
        else if (!strcmp(which, "cut")) said = ssaldorip_cut(SERVER, OWN);
        else return 3;
        if (said) { fprintf(stderr, "%s refused %u\n", which, said); return 1; }
    }
    return 0;
}
