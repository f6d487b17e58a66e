/* Feeds random and mutated payloads, commands and ticks to connections, and random and mutated
 * packets to file servers, and looks that each call answers a number of the header's. Arguments: how
 * many random bytes, and how many mutated payloads and packets; 1000000 and 100000 where there are
 * none. Ends with 0 where each did. */
#include "gidzork.h"
#include <stdio.h>
#include <stdlib.h>
#include <string.h>

#define PAYLOAD(bytes) { (const uint8_t *)(bytes), sizeof(bytes) - 1 }

static const struct { const uint8_t *bytes; size_t length; } payloads[] = {
    PAYLOAD("\x05\0\0\0\x0cssh-userauth"),
    PAYLOAD("\x32\0\0\0\x05" "alice\0\0\0\x0essh-connection\0\0\0\x08password\0\0\0\0\x05guest"),
    PAYLOAD("\x32\0\0\0\x05" "alice\0\0\0\x0essh-connection\0\0\0\x09publickey\1\0\0\0\x0bssh-ed25519"
            "\0\0\0\x13\0\0\0\x0bssh-ed25519\0\0\0\0\0\0\0\x17\0\0\0\x0bssh-ed25519\0\0\0\4sign"),
    PAYLOAD("\x5a\0\0\0\x07session\0\0\0\x07\0\0\x10\0\0\0\x04\0"),
    PAYLOAD("\x5a\0\0\0\x0c" "direct-tcpip\0\0\0\x08\0\0\x10\0\0\0\x04\0\0\0\0\x04host\0\0\0\x50"
            "\0\0\0\x02me\0\0\0\x09"),
    PAYLOAD("\x62\0\0\0\x02\0\0\0\x07pty-req\x01\0\0\0\x05xterm\0\0\0\x50\0\0\0\x18\0\0\0\0\0\0\0\0"
            "\0\0\0\x06\x35\0\0\0\1\0"),
    PAYLOAD("\x62\0\0\0\x02\0\0\0\x04" "exec\x01\0\0\0\x02ls"),
    PAYLOAD("\x62\0\0\0\x02\0\0\0\x03" "env\0\0\0\0\x04LANG\0\0\0\x01" "C"),
    PAYLOAD("\x5d\0\0\0\x02\0\x10\0\0"),
    PAYLOAD("\x5e\0\0\0\x02\0\0\0\x04" "data"),
    PAYLOAD("\x50\0\0\0\x0dtcpip-forward\x01\0\0\0\0\0\0\0\x16"),
    PAYLOAD("\x60\0\0\0\x02"),
    PAYLOAD("\x61\0\0\0\x02"),
    PAYLOAD("\x14"),
    PAYLOAD("\x15"),
};
enum { COUNT = sizeof payloads / sizeof payloads[0] };

/* Packets of a client of SFTP. */
static const struct { const uint8_t *bytes; size_t length; } packets[] = {
    PAYLOAD("\0\0\0\x05\x01\0\0\0\x03"),
    PAYLOAD("\0\0\0\x13\x03\0\0\0\1\0\0\0\2/a\0\0\0\x0b\0\0\0\0"),
    PAYLOAD("\0\0\0\x1d\x06\0\0\0\2\0\0\0\4\0\0\0\1\0\0\0\0\0\0\0\0\0\0\0\4data"),
    PAYLOAD("\0\0\0\x19\x05\0\0\0\3\0\0\0\4\0\0\0\1\0\0\0\0\0\0\0\0\0\0\x80\0"),
    PAYLOAD("\0\0\0\x0d\x04\0\0\0\4\0\0\0\4\0\0\0\1"),
    PAYLOAD("\0\0\0\x0d\x08\0\0\0\5\0\0\0\4\0\0\0\1"),
    PAYLOAD("\0\0\0\x0b\x11\0\0\0\6\0\0\0\2/a"),
    PAYLOAD("\0\0\0\x0b\x0d\0\0\0\7\0\0\0\2/a"),
    PAYLOAD("\0\0\0\x11\x12\0\0\0\x08\0\0\0\2/a\0\0\0\2/b"),
    PAYLOAD("\0\0\0\x0a\x10\0\0\0\x09\0\0\0\1."),
    PAYLOAD("\0\0\0\x0a\x0b\0\0\0\x0a\0\0\0\1/"),
};
enum { PACKETS = sizeof packets / sizeof packets[0] };

static gidzork_handle handle;
static gidzork_files files;
static uint64_t state = 88172645463325252u;
static unsigned long calls[18], wrong;

static uint32_t any(uint32_t below)
{
    state ^= state << 13; state ^= state >> 7; state ^= state << 17;
    return (uint32_t)(state >> 32) % below;
}

static void counts(uint32_t code) { if (code < 18) calls[code]++; else wrong++; }

/* Takes out all that happened, into an exact place at times. */
static void drain(void)
{
    static uint8_t out[4096];
    gidzork_entry entry = {0};
    uint32_t code;
    do {
        code = gidzork_next(&handle, out, any(8) ? sizeof out : any(64), &entry);
        counts(code);
    } while (code == GIDZORK_CONTINUES || code == GIDZORK_TOO_SHORT);
}

static void fresh(void)
{
    gidzork_setup setup = {.methods = 15, .sessions = any(3), .direct_tcpip = any(3),
        .direct_streamlocal = any(3), .window_size = any(1 << 20), .maximum_packet_size = 1 << 15,
        .max_auth_attempts = any(20), .rekey_bytes = 1 << 16, .repeatable = any(2)};
    gidzork_free(&handle);
    counts(gidzork_open(&handle, &setup, (const uint8_t *)"id", 2, (const uint8_t *)"", 0));
    for (int i = 0; i < 2 && any(8); i++) {  /* mostly behind a login */
        counts(gidzork_feed(&handle, 1000, payloads[i].bytes, payloads[i].length, 1));
        drain();
    }
}

/* One payload, from memory of just its length, with its question asked first. */
static void feed(const uint8_t *bytes, size_t length)
{
    uint8_t *payload = malloc(length + 1), out[256];
    gidzork_question_t question = {0};
    memcpy(payload, bytes, length);
    counts(gidzork_question(&handle, 1000, payload, length, out, sizeof out, &question));
    uint32_t code = length && payload[0] >= 20 && payload[0] < 50
        ? gidzork_exchange(&handle, 1000, payload, length, any(2))
        : gidzork_feed(&handle, 1000, payload, length, any(5));
    counts(code);
    free(payload);
    if (any(9)) drain();
    if (any(6) == 0) counts(gidzork_command(&handle, 1000, any(99), any(9), any(4), any(3)));
    if (any(9) == 0) counts(gidzork_data(&handle, 1000, 1, any(4), any(3), bytes, length));
    if (any(9) == 0) counts(gidzork_answer_open(&handle, 1000, 2, any(4), any(6)));
    if (any(200) == 0) counts(gidzork_tick(&handle, 1000, any(6)));
    drain();
    if (code != GIDZORK_CONTINUES && any(3) == 0) fresh();
}

/* A piece for the file server, from memory of just its length; what it answers is taken out. */
static void serve(const uint8_t *bytes, size_t length)
{
    uint8_t *piece = malloc(length + 1), first[64];
    size_t count = 0;
    uint32_t code, again;
    memcpy(piece, bytes, length);
    code = gidzork_sftp_feed(&files, piece, length);
    counts(code);
    free(piece);
    if (any(5) == 0) counts(gidzork_sftp_feed(&files, bytes, any((uint32_t)length + 1)));
    do {
        size_t room = any(4) ? 70000 : any(64);
        uint8_t *out = malloc(room ? room : 1);
        again = gidzork_sftp_next(&files, out, room, &count);
        counts(again);
        free(out);
        if (again == GIDZORK_CONTINUES && (count == 0 || count > room)) wrong++;
    } while (again == GIDZORK_CONTINUES || again == GIDZORK_TOO_SHORT);
    if (any(50) == 0) counts(gidzork_sftp_end(&files));
    if (code != GIDZORK_CONTINUES || any(500) == 0) {
        if (any(2)) counts(gidzork_sftp_feed(&files, bytes, length));
        gidzork_sftp_free(&files);
        if (any(9) == 0) counts(gidzork_sftp_feed(&files, bytes, length));
        counts(gidzork_sftp_open(&files));
        if (any(9) == 0) counts(gidzork_sftp_open(&files));
        counts(gidzork_sftp_feed(&files, packets[0].bytes, packets[0].length));
        counts(gidzork_sftp_next(&files, first, sizeof first, &count));
    }
}

int main(int argc, char **argv)
{
    unsigned long bytes = argc > 1 ? strtoul(argv[1], 0, 10) : 1000000;
    unsigned long mutated = argc > 2 ? strtoul(argv[2], 0, 10) : 100000;
    uint8_t payload[256];
    fresh();
    while (bytes > 0) {
        size_t length = any(64);
        for (size_t i = 0; i < length; i++) payload[i] = (uint8_t)any(256);
        feed(payload, length);
        serve(payload, length);
        bytes -= length < bytes ? length : bytes;
    }
    for (fresh(); mutated > 0; mutated--) {
        uint32_t which = any(COUNT);
        size_t length = payloads[which].length;
        memcpy(payload, payloads[which].bytes, length);
        for (uint32_t flips = any(4); flips > 1; flips--) payload[any((uint32_t)length)] = any(256);
        feed(payload, any(10) ? length : any((uint32_t)length + 1));
        which = any(PACKETS);
        length = packets[which].length;
        memcpy(payload, packets[which].bytes, length);
        for (uint32_t flips = any(4); flips > 1; flips--) payload[any((uint32_t)length)] = any(256);
        serve(payload, any(10) ? length : any((uint32_t)length + 1));
    }
    gidzork_free(&handle);
    gidzork_sftp_free(&files);
    for (unsigned i = 0; i < 18; i++) printf("%u: %lu\n", i, calls[i]);
    printf("%lu others\n", wrong);
    return wrong != 0;
}
