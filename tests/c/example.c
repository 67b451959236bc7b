/* Two servers and a phone, in C over include/ssaldorip.h: a session, writes, a message, reads, a cut, a recovery. Prints
 * what it sees, which is the file expected.txt, and ends with status 0 if no call was refused that should not be. */
#include <inttypes.h>
#include <stdio.h>
#include <stdlib.h>
#include <string.h>

#include "ssaldorip.h"

enum { PHONE = 5, CELL = 300, SERVERS = 2 };

struct server {
    uint8_t own;
    uint8_t state[SSALDORIP_STATE_SIZE];
    uint8_t history[SSALDORIP_HISTORY_SIZE];
    uint8_t image[SSALDORIP_IMAGE_SIZE];
};

/* The three buffers of a server, as every call takes them. */
#define BUFFERS(s) (s)->state, sizeof (s)->state, (s)->history, sizeof (s)->history, (s)->image, sizeof (s)->image

static const uint8_t zero[SSALDORIP_VECTOR_SIZE] = {0};

static unsigned u16_at(const uint8_t *bytes) { return bytes[0] + 256u * bytes[1]; }

static uint32_t u32_at(const uint8_t *bytes) { return u16_at(bytes) + 65536u * (uint32_t)u16_at(bytes + 2); }

/* Ends the program if a call was refused. */
static void done(const char *what, uint32_t refusal) {
    if (refusal != 0) {
        printf("%s: refused %" PRIu32 "\n", what, refusal);
        exit(1);
    }
}

/* Ends the program if the archive is not the header's: no other call is then safe. */
static void same_version(void) {
    if (ssaldorip_version() != SSALDORIP_VERSION) {
        printf("the archive has version %" PRIu32 ", the header %d\n", ssaldorip_version(), SSALDORIP_VERSION);
        exit(1);
    }
    printf("archive and header are of one version\n");
}

static void print_vector(const uint8_t *vector) {
    for (int i = 0; i < SERVERS; i++) printf(" %u", u16_at(vector + 2 * i));
    printf("\n");
}

static void start(struct server *s, uint8_t own) {
    s->own = own;
    done("start", ssaldorip_start(SERVERS, own, BUFFERS(s)));
}

/* A write request carries the zero vector. Its reply raises the phone's session, which is stored before "saved" is shown. */
static void write_note(struct server *s, uint8_t *session, uint32_t value, uint32_t time) {
    uint8_t reply[SSALDORIP_WRITE_REPLY_SIZE];
    done("write", ssaldorip_write(BUFFERS(s), s->own, PHONE, CELL, value, time, zero, sizeof zero, reply, sizeof reply));
    done("raise", ssaldorip_session_raise_written(session, SSALDORIP_SESSION_SIZE, reply, sizeof reply));
    printf("server %d: write of %" PRIu32 ", V", s->own, value);
    print_vector(reply);
}

/* What a read of the phone carries. */
static void ask(const uint8_t *session, uint8_t *asked) {
    done("asks", ssaldorip_session_asks(session, SSALDORIP_SESSION_SIZE, asked, SSALDORIP_VECTOR_SIZE));
}

/* A read by the phone's session. Its reply raises the session, which is stored before the value is shown. */
static void read_note(struct server *s, uint8_t *session) {
    uint8_t asked[SSALDORIP_VECTOR_SIZE], reply[SSALDORIP_READ_REPLY_SIZE];
    ask(session, asked);
    uint32_t refusal = ssaldorip_read(BUFFERS(s), s->own, PHONE, CELL, asked, sizeof asked, reply, sizeof reply);
    printf("server %d: read, ", s->own);
    if (refusal == SSALDORIP_NOT_YET) {
        printf("not yet\n");
        return;
    }
    done("read", refusal);
    done("raise", ssaldorip_session_raise(session, SSALDORIP_SESSION_SIZE, reply + 5, SSALDORIP_VECTOR_SIZE));
    if (reply[0] == 1)
        printf("value %" PRIu32 ", V", u32_at(reply + 1));
    else
        printf("no note, V");
    print_vector(reply + 5);
}

/* Whether a server can go on with what it has or, if down, be brought back from it. */
static void print_judged(const struct server *s) {
    uint32_t refusal = ssaldorip_judge(BUFFERS(s));
    if (refusal != SSALDORIP_UNSOUND) done("judge", refusal);
    printf("server %d: %s\n", s->own, refusal == 0 ? "sound" : "unsound");
}

static void print_status(const struct server *s) {
    uint8_t reply[SSALDORIP_STATUS_REPLY_SIZE];
    uint32_t refusal = ssaldorip_status(BUFFERS(s), reply, sizeof reply);
    if (refusal == SSALDORIP_NOT_UP) {
        printf("server %d: down", s->own);
    } else {
        done("status", refusal);
        printf("server %d: up, %d in CR", s->own, reply[0]);
        if (reply[1] != SSALDORIP_NO_PHONE) printf(", lowest %d", reply[1]);
    }
    printf(", checkpoint %u, log %u\n", u16_at(s->image + 2), u16_at(s->image + 6));
}

static void send_message(const struct server *from, struct server *to) {
    uint8_t message[SSALDORIP_MESSAGE_MOST];
    done("message", ssaldorip_message(BUFFERS(from), message, sizeof message));
    size_t length = u16_at(message + 6);
    done("check", ssaldorip_message_check(message, length));
    printf("server %d to server %d: %u writes in %u bytes\n", from->own, to->own, u16_at(message + 2), (unsigned)length);
    done("update", ssaldorip_update(BUFFERS(to), to->own, message, length));
}

/* The reader of a message, from its first record to its end. */
static void print_records(const uint8_t *message, size_t length) {
    uint8_t record[SSALDORIP_RECORD_SIZE];
    size_t at = ssaldorip_message_first(message, length);
    /* The record has its size, so that nothing is refused: the reading ends with 0. */
    while ((at = ssaldorip_message_next(message, length, at, record, sizeof record)) != 0)
        printf("a record: origin %d, cell %u, value %" PRIu32 "\n", record[0], u16_at(record + 2), u32_at(record + 4));
}

static void print_look_up(const struct server *s, uint8_t origin, uint32_t number) {
    uint32_t place = ssaldorip_look_up(s->image, sizeof s->image, origin, number);
    if (place >= 1 && place <= SSALDORIP_TOO_SHORT) done("look-up", place);
    printf("server %d: write %" PRIu32 " of server %d ", s->own, number, origin);
    if (place == 0)
        printf("is not in the image\n");
    else
        printf("is in the image, value %" PRIu32 "\n", u32_at(s->image + place + 4));
}

int main(void) {
    static struct server zeroth, first;
    uint8_t session[SSALDORIP_SESSION_SIZE], asked[SSALDORIP_VECTOR_SIZE];
    uint8_t records[2 * SSALDORIP_RECORD_SIZE], message[SSALDORIP_MESSAGE_HEADER + sizeof records];

    same_version();
    start(&zeroth, 0);
    start(&first, 1);
    done("session", ssaldorip_session_start(SSALDORIP_BOTH, session, sizeof session));

    /* The other server lacks the phone's own note, which the phone has not read yet either. A message brings it. */
    read_note(&zeroth, session);
    write_note(&zeroth, session, 7, 900);
    read_note(&first, session);
    send_message(&zeroth, &first);
    read_note(&first, session);
    write_note(&first, session, 8, 901);
    send_message(&first, &zeroth);
    read_note(&zeroth, session);
    print_status(&zeroth);

    /* A cut loses what is not in the image: here the other server's write, which the next message brings again. */
    done("cut", ssaldorip_cut(BUFFERS(&zeroth), zeroth.own));
    print_status(&zeroth);
    print_look_up(&zeroth, 0, 1);
    print_look_up(&zeroth, 1, 1);
    done("recover", ssaldorip_recover(BUFFERS(&zeroth), zeroth.own));
    print_status(&zeroth);
    read_note(&zeroth, session);
    send_message(&first, &zeroth);
    read_note(&zeroth, session);

    /* This second read takes a checkpoint: at the first, one write stood in the log alone. The other server's write is then
     * stored too. */
    read_note(&zeroth, session);
    print_status(&zeroth);
    print_look_up(&zeroth, 1, 1);

    /* A write cut before its count is stored is as if it had never been. */
    done("write_cut", ssaldorip_write_cut(BUFFERS(&zeroth), zeroth.own, PHONE, CELL, 9, 902, zero, sizeof zero,
                                          SSALDORIP_WRITE_STORES - 1));
    done("recover", ssaldorip_recover(BUFFERS(&zeroth), zeroth.own));
    print_look_up(&zeroth, 0, 2);
    write_note(&zeroth, session, 9, 902);

    /* A read that takes a checkpoint, cut after one of its stores: both counts are as before. */
    read_note(&zeroth, session);
    ask(session, asked);
    done("read_cut", ssaldorip_read_cut(BUFFERS(&zeroth), zeroth.own, PHONE, CELL, asked, sizeof asked, 1));
    print_status(&zeroth);

    /* The restart of a program: the image alone is left. It is sound, and with another log count it is not. */
    memset(zeroth.state, 0, sizeof zeroth.state);
    memset(zeroth.history, 0, sizeof zeroth.history);
    memcpy(zeroth.state, zeroth.image, 2);
    print_judged(&zeroth);
    zeroth.image[6]++;
    print_judged(&zeroth);
    zeroth.image[6]--;
    done("recover", ssaldorip_recover(BUFFERS(&zeroth), zeroth.own));
    print_status(&zeroth);
    read_note(&zeroth, session);

    /* The phone app writes a message of its own from records, here those of the first server's history, and reads it. */
    memcpy(records, first.history, sizeof records);
    done("message_write", ssaldorip_message_write(SERVERS, 1, records, sizeof records, message, sizeof message));
    printf("a message of %u writes in %u bytes, checked: %" PRIu32 "\n", u16_at(message + 2), u16_at(message + 6),
           ssaldorip_message_check(message, sizeof message));
    print_records(message, sizeof message);
    printf("one byte less: refused %" PRIu32 ", and read as no record\n",
           ssaldorip_message_check(message, sizeof message - 1));
    print_records(message, sizeof message - 1);
    return 0;
}
