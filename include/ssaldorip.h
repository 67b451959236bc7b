/* The C interface of the sync server: sizes, refusal numbers and the calls of libssaldorip.a (x86-64 Linux).
 *
 * The library has no memory of its own: the caller lends every buffer, as a pointer and a length, and the library keeps
 * none of them. A call reads and writes only what was lent to it, does its own checking on any bytes and numbers, and
 * always ends. These three things it cannot check, so the caller holds to them:
 *   - a pointer is never null, also with length 0, and its length is true;
 *   - a buffer lent for change overlaps no other buffer of the same call;
 *   - no other thread uses a buffer during a call in which it is lent for change.
 *
 * Each call returns 0 for done, or the number of a refusal (enum ssaldorip_refusal); ssaldorip_version, ssaldorip_look_up,
 * ssaldorip_message_first and ssaldorip_message_next return other numbers.
 * A refusal changes no lent byte. Bytes past the sizes below stay as they are. Numbers in buffers are little-endian.
 *
 * A server is three buffers. The state and the history are its memory, which a cut loses. The image is what is stored: it
 * alone brings a server back. Send no reply before the image that the step left is stored, or a cut may lose the write. Store
 * it whole or not at all, or else in store order: the bytes of the new records in order, then the count, and each count whole
 * (SSALDORIP_WRITE_STORES and ssaldorip_read_cut list the stores).
 *
 * A phone raises its session by each reply and stores it: after a read before it shows the value (ssaldorip_session_raise),
 * after a write before it tells the grower that the note is saved (ssaldorip_session_raise_written).
 */
#ifndef SSALDORIP_H
#define SSALDORIP_H

#include <stddef.h>
#include <stdint.h>

#ifdef __cplusplus
extern "C" {
#endif

/* The version of this interface. It grows whenever a signature, a size or what a call returns changes. */
#define SSALDORIP_VERSION 2

/* Limits. Numbers of servers, phones and cells begin at 0. */
#define SSALDORIP_SERVERS 8           /* N is 1 to this, and a vector has this many positions */
#define SSALDORIP_PHONES 64
#define SSALDORIP_CELLS 1024
#define SSALDORIP_HISTORY_WRITES 256
#define SSALDORIP_LOG_WRITES 64

/* Sizes in bytes. */
#define SSALDORIP_RECORD_SIZE 28      /* origin 1, phone 1, cell 2, value 4, phone time 4, timestamp T 16 */
#define SSALDORIP_VECTOR_SIZE 16      /* eight positions of 2; positions from N on are zero */
#define SSALDORIP_SESSION_SIZE 33     /* vector of reads 16, vector of own writes 16, choice 1 */
#define SSALDORIP_STATE_SIZE 160      /* N 1, own number 1, up 1, zero 1, held 2, nWrites 2, V 16, CR 8, RW 64 x 2 */
#define SSALDORIP_HISTORY_SIZE 7168   /* 256 records */
#define SSALDORIP_IMAGE_SIZE 8976     /* header 16, 256 checkpoint records, 64 log records */
#define SSALDORIP_READ_REPLY_SIZE 21  /* 1 and the value 4, or five zeros for "no note"; then V 16 */
#define SSALDORIP_WRITE_REPLY_SIZE 16 /* V */
#define SSALDORIP_STATUS_REPLY_SIZE 2 /* how many phones are in CR, the lowest of them */
#define SSALDORIP_MESSAGE_HEADER 8    /* N 1, sender 1, count 2, offset 2 (8), total length 2; then the records */
#define SSALDORIP_MESSAGE_MOST 7176   /* 8 + 28 x 256 */

/* The second byte of a status reply when no phone is in CR. */
#define SSALDORIP_NO_PHONE 255

/* The stores of a write, for ssaldorip_write_cut: the 28 bytes of the record in order, then the log count. */
#define SSALDORIP_WRITE_STORES 29

/* What a session chooses, for as long as it lasts: which writes a server must have to serve its reads. */
enum ssaldorip_choice {
    /* Reads that stay read: what the session has read. */
    SSALDORIP_READS = 1,
    /* Own writes: those whose replies the session has received. What it has read may then be missing. */
    SSALDORIP_WRITES = 2,
    SSALDORIP_BOTH = 3
};

/* Why a call is refused. */
enum ssaldorip_refusal {
    /* In a call or event, N, server, phone, cell, origin or cut count out of range; the event's server is not the
     * state's own; a vector past N is not zero; a session's choice is unknown. */
    SSALDORIP_OUT_OF_RANGE = 1,
    /* Server down; for recovery, up. */
    SSALDORIP_NOT_UP = 2,
    /* Not yet: V is below the request's vector at some position. The phone asks again later, or elsewhere. */
    SSALDORIP_NOT_YET = 3,
    /* A write at 256 held, or an update's new writes take the history past 256. */
    SSALDORIP_HISTORY_FULL = 4,
    /* A write with 64 in the log. A checkpoint frees the log's room. */
    SSALDORIP_LOG_FULL = 5,
    /* State or image unsound, or message malformed; at a server also a message of another N or from the receiver. */
    SSALDORIP_UNSOUND = 6,
    /* At its turn a foreign write is numbered above V[origin] + 1. */
    SSALDORIP_GAP = 7,
    /* A write of the receiver's own origin is numbered above V[own]. */
    SSALDORIP_OWN_AHEAD = 8,
    /* A lent buffer is too short. */
    SSALDORIP_TOO_SHORT = 9
};

/* ---- Before the first other call ---- */

/* The archive's SSALDORIP_VERSION. A program compares it with its header's before its first other call: an object that was
 * compiled with another version's header would corrupt memory without a word. */
uint32_t ssaldorip_version(void);

/* ---- A server: start, requests, updates, cuts, recovery ----
 *
 * The order of refusals is one for all: 9 for state and asked vector; 9 for history and image; 6 for the state; 2; 1; 6 for
 * the message; 3; 7 or 8 by message order; 4; 5; 9 for the reply or output; 1 for a cut count. Each call names those of them
 * that it has, in this order.
 */

/* Starts server `own` of N = `n` anew: an up state, a zeroed history, an image whose two counts are zero. What the buffers
 * held before is free, and lost. A refused start makes no server: the state's bytes stay what they were.
 * Refuses 9 (state, history, image), 1 (n is not 1 to 8, or own is not below n). */
uint32_t ssaldorip_start(uint8_t n, uint8_t own,
                         uint8_t *state, size_t state_len,
                         uint8_t *history, size_t history_len,
                         uint8_t *image, size_t image_len);

/* Serves a phone's read of a cell. `asked` is what ssaldorip_session_asks gives. The reply is the value of the cell's winner,
 * or "no note", and V. A second read (the phone is in CR) takes a checkpoint first, which changes the image, if at the
 * phone's first read the checkpoint lacked own writes of the server.
 * Refuses 9 (state, asked), 9 (history, image), 6, 2, 1 (server, phone, cell, asked past N), 3, 9 (reply under 21). */
uint32_t ssaldorip_read(uint8_t *state, size_t state_len,
                        uint8_t *history, size_t history_len,
                        uint8_t *image, size_t image_len,
                        uint8_t server, uint8_t phone, uint16_t cell,
                        const uint8_t *asked, size_t asked_len,
                        uint8_t *reply, size_t reply_len);

/* The same read, cut after its first `stores` stores: exactly these are in the image, the state is down, the history stays,
 * and there is no reply. A checkpoint has 28 stores for each record that it adds, in order, then one for the checkpoint count
 * and one for the log count, which becomes 0; any other read has none. For trying cuts one by one.
 * Refuses as ssaldorip_read does, but for the reply; then, last, 1 (more stores than the step has). */
uint32_t ssaldorip_read_cut(uint8_t *state, size_t state_len,
                            uint8_t *history, size_t history_len,
                            uint8_t *image, size_t image_len,
                            uint8_t server, uint8_t phone, uint16_t cell,
                            const uint8_t *asked, size_t asked_len,
                            uint32_t stores);

/* Serves a phone's write of a cell: value and phone time are any numbers. `asked` is the zero vector from every phone. The
 * write is in the log of the image and at the history's end. The reply is V, which at `server` is the write's number, and the
 * phone's session is raised by it (ssaldorip_session_raise_written).
 * Refuses 9 (state, asked), 9 (history, image), 6, 2, 1 (server, phone, cell, asked past N), 3, 4, 5, 9 (reply under 16). */
uint32_t ssaldorip_write(uint8_t *state, size_t state_len,
                         uint8_t *history, size_t history_len,
                         uint8_t *image, size_t image_len,
                         uint8_t server, uint8_t phone, uint16_t cell,
                         uint32_t value, uint32_t time,
                         const uint8_t *asked, size_t asked_len,
                         uint8_t *reply, size_t reply_len);

/* The same write, cut after its first `stores` stores, 0 to 29: exactly these are in the image, the state is down, the
 * history stays, and there is no reply. After 29 the write is stored, and recovery gives it.
 * Refuses as ssaldorip_write does, but for the reply; then, last, 1 (more stores than 29). */
uint32_t ssaldorip_write_cut(uint8_t *state, size_t state_len,
                             uint8_t *history, size_t history_len,
                             uint8_t *image, size_t image_len,
                             uint8_t server, uint8_t phone, uint16_t cell,
                             uint32_t value, uint32_t time,
                             const uint8_t *asked, size_t asked_len,
                             uint32_t stores);

/* Takes another server's update message. A write numbered at most V[origin] is skipped, the next one is appended to the
 * history and raises V[origin]. Nothing is stored: the image stays.
 * Refuses 9 (state), 9 (history, image), 6, 2, 1 (server), 6 (message), 7 or 8 (the first in message order), 4. */
uint32_t ssaldorip_update(uint8_t *state, size_t state_len,
                          uint8_t *history, size_t history_len,
                          uint8_t *image, size_t image_len,
                          uint8_t server,
                          const uint8_t *message, size_t message_len);

/* A plain cut: the state is down, and zero but for N and own number. History and image stay.
 * Refuses 9 (state), 9 (history, image), 6, 2, 1 (server). */
uint32_t ssaldorip_cut(uint8_t *state, size_t state_len,
                       uint8_t *history, size_t history_len,
                       uint8_t *image, size_t image_len,
                       uint8_t server);

/* Brings a down server back from its image: the history is the checkpoint and then the log's later writes, zero after
 * them; the state is up, with no phone in CR. The image stays. After a restart of the program, lend a zeroed state with the
 * first two bytes of the image (N and own number) as its first two, and any history.
 * Refuses 9 (state), 9 (history, image), 6, 2 (the server is up), 1 (server). */
uint32_t ssaldorip_recover(uint8_t *state, size_t state_len,
                           uint8_t *history, size_t history_len,
                           uint8_t *image, size_t image_len,
                           uint8_t server);

/* ---- A server: reports, which change nothing but their reply ---- */

/* Is the state sound with its history and image, up or down? An operator asks it of a stored image with the state that
 * ssaldorip_recover names, and any history. Changes nothing; 0 is sound.
 * Refuses 9 (state under 160), 9 (history, image), 6 (unsound). */
uint32_t ssaldorip_judge(const uint8_t *state, size_t state_len,
                         const uint8_t *history, size_t history_len,
                         const uint8_t *image, size_t image_len);

/* How many phones are in CR, and the lowest numbered of them or SSALDORIP_NO_PHONE.
 * Refuses 9 (state), 9 (history, image), 6, 2, 9 (reply under 2). */
uint32_t ssaldorip_status(const uint8_t *state, size_t state_len,
                          const uint8_t *history, size_t history_len,
                          const uint8_t *image, size_t image_len,
                          uint8_t *reply, size_t reply_len);

/* Looks a write up in an image, by origin and number: the checkpoint first, else the log. Returns the place of its first
 * byte in the image (16 or more), or 0 if it is not there, or a refusal (1 to 9). A number that cannot occur is not there.
 * Refuses 9 (image), 6 (an image that no down server has), 1 (origin is not below the image's N). */
uint32_t ssaldorip_look_up(const uint8_t *image, size_t image_len,
                           uint8_t origin, uint32_t number);

/* Writes the server's own update message, its whole history in order, at the start of `out`. Its length stands in bytes 6
 * and 7; the other bytes of `out` stay. SSALDORIP_MESSAGE_MOST bytes are always enough.
 * Refuses 9 (state), 9 (history, image), 6, 2, 9 (out under 8 + 28 x held). */
uint32_t ssaldorip_message(const uint8_t *state, size_t state_len,
                           const uint8_t *history, size_t history_len,
                           const uint8_t *image, size_t image_len,
                           uint8_t *out, size_t out_len);

/* ---- Usable alone, by the phone app ---- */

/* Is this exactly one well formed update message, with no byte more or less? The length lent is part of the question.
 * Refuses 6 (it is not). */
uint32_t ssaldorip_message_check(const uint8_t *message, size_t message_len);

/* Writes an update message of these records, 28 bytes each, at the start of `out`: 8 + records_len bytes. The other bytes
 * of `out` stay.
 * Refuses 1 (n or sender), 6 (records not whole, not well formed for n, or over 256), 9 (out under 8 + records_len). */
uint32_t ssaldorip_message_write(uint8_t n, uint8_t sender,
                                 const uint8_t *records, size_t records_len,
                                 uint8_t *out, size_t out_len);

/* The place of a message's first record, where reading begins: 8 for a message that ssaldorip_message_check takes, otherwise
 * message_len, so that ssaldorip_message_next finds nothing there. No app begins at a constant, since a later version of the
 * message has a longer header. A message is read so:
 *     size_t at = ssaldorip_message_first(message, length);
 *     while ((at = ssaldorip_message_next(message, length, at, record, sizeof record)) != 0) show(record);
 * Refuses nothing. */
size_t ssaldorip_message_first(const uint8_t *message, size_t message_len);

/* Reads a message record by record: copies the 28 bytes of the record at place `at` to the start of `record` and returns the
 * place behind it, or 0 if no whole record is left there. From the place that ssaldorip_message_first gives, a message gives
 * exactly its writes, in order, and then 0. The message is not checked here; on any bytes and any place the call reads within
 * `message` only. The other bytes of `record` stay, and at 0 or 9 all of them.
 * Refuses 9 (record under 28), which no place is. */
size_t ssaldorip_message_next(const uint8_t *message, size_t message_len, size_t at,
                              uint8_t *record, size_t record_len);

/* Begins a phone's session: both vectors are zero, and no later call changes the choice. A phone keeps one session, and a
 * reinstalled app begins a new one. A session that was stored by version 1 has 16 bytes and is refused with 9: the app appends
 * 16 zero bytes and the byte 1.
 * Refuses 9 (session under 33), 1 (choice is not 1, 2 or 3). */
uint32_t ssaldorip_session_start(uint8_t choice,
                                 uint8_t *session, size_t session_len);

/* Raises a session in place by the vector of a read's reply (its last 16 bytes): its vector of reads becomes the maximum at
 * each position, whatever the choice. The phone stores the raised session before it shows the reply's value, or it may forget
 * that the value was seen, and take an older one later.
 * Refuses 9 (session under 33, reply_vector under 16), 1 (byte 32 of the session is no choice). */
uint32_t ssaldorip_session_raise(uint8_t *session, size_t session_len,
                                 const uint8_t *reply_vector, size_t reply_vector_len);

/* The same by a write's reply (all of it), which raises the vector of own writes. A session does not know of a note whose
 * reply is not given here, or is forgotten, and a later read may be served without it: so the phone stores the raised session
 * before it tells the grower that the note is saved.
 * Refuses as ssaldorip_session_raise does. */
uint32_t ssaldorip_session_raise_written(uint8_t *session, size_t session_len,
                                         const uint8_t *reply_vector, size_t reply_vector_len);

/* Writes what the session's next read carries at the start of `asked`: of the two vectors the one that was chosen, or the
 * maximum of both. A write carries zero. The other bytes of `asked` stay.
 * Refuses 9 (session under 33), 1 (byte 32 of the session is no choice), 9 (asked under 16). */
uint32_t ssaldorip_session_asks(const uint8_t *session, size_t session_len,
                                uint8_t *asked, size_t asked_len);

#ifdef __cplusplus
}
#endif

#endif
