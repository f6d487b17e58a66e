/* Logs a user in over memory, with the header alone: what a client would send is fed, and what the
 * server sends is printed. Ends with 0 where each step went as it is to go.
 *
 *     cc -O2 -I ../../crates/ssh_c/include login.c libssh_c.a liblibc_c.a -o login && ./login
 */
#include "gidzork.h"
#include <stdio.h>
#include <string.h>

static gidzork_handle handle;
static uint8_t payload[512], out[65536];
static size_t length;
static unsigned failed;

static void byte(uint8_t b) { payload[length++] = b; }

static void number(uint32_t n)
{
    byte(n >> 24); byte(n >> 16 & 255); byte(n >> 8 & 255); byte(n & 255);
}

static void string(const char *s)
{
    number((uint32_t)strlen(s));
    memcpy(payload + length, s, strlen(s));
    length += strlen(s);
}

static void start(uint8_t kind) { length = 0; byte(kind); }

/* Takes out what happened; returns the kinds of it, one digit or letter each, as a check. */
static void drain(const char *what, const char *wanted)
{
    static const char letters[] = "0123456789abcdefghijklmnopqrstuvwxyzABCDEFGHIJKLMNOP";
    gidzork_entry entry = {0};
    char kinds[64];
    size_t count = 0;
    while (count + 1 < sizeof kinds
           && gidzork_next(&handle, out, sizeof out, &entry) == GIDZORK_CONTINUES) {
        kinds[count++] = letters[entry.kind];
        printf("    %u, channel %u, %llu, %u: ", entry.kind, entry.channel,
               (unsigned long long)entry.number, entry.second);
        for (size_t i = 0; i < entry.length; i++) printf("%02x", out[i]);
        printf("\n");
    }
    kinds[count] = 0;
    if (strcmp(kinds, wanted) != 0) { printf("%s: %s, not %s\n", what, kinds, wanted); failed++; }
}

/* One answer of the library. */
static void is(const char *what, uint32_t code, uint32_t wanted)
{
    printf("%s: %u\n", what, code);
    if (code != wanted) { printf("    not %u\n", wanted); failed++; }
}

static void feed(const char *what, uint32_t verdict, const char *wanted)
{
    is(what, gidzork_feed(&handle, 1000, payload, length, verdict), GIDZORK_CONTINUES);
    drain(what, wanted);
}

static void request(const char *method)
{
    start(50); string("alice"); string("ssh-connection"); string(method);
}

int main(void)
{
    gidzork_setup setup = {.methods = GIDZORK_METHOD_PASSWORD, .sessions = GIDZORK_ACCEPT,
        .window_size = 1 << 21, .maximum_packet_size = 1 << 15, .max_auth_attempts = 6,
        .auth_rejection_time = 500, .rekey_bytes = 1 << 30};
    const uint8_t *id = (const uint8_t *)"the exchange hash", *line = (const uint8_t *)"SSH-2.0-c";
    gidzork_question_t question = {0};

    is("before it is opened", gidzork_feed(&handle, 0, payload, 1, 0), GIDZORK_NO_CONNECTION);
    is("open", gidzork_open(&handle, &setup, id, 17, line, 9), GIDZORK_CONTINUES);
    is("open twice", gidzork_open(&handle, &setup, id, 17, line, 9), GIDZORK_BAD_ARGUMENT);
    start(5); string("ssh-userauth"); feed("the service", GIDZORK_REFUSED, "1");
    request("none"); feed("method none", GIDZORK_REFUSED, "1");
    request("password"); byte(0); string("wrong"); feed("a wrong password", GIDZORK_REFUSED, "1");
    request("password"); byte(0); string("secret");
    is("the question", gidzork_question(&handle, 1000, payload, length, out, sizeof out, &question),
       GIDZORK_CONTINUES);
    if (question.kind != 2 || question.length != 19 || memcmp(out + 13, "secret", 6)) failed++;
    is("a command before", gidzork_command(&handle, 1000, 1, GIDZORK_CLOSE, 2, 0), 0);
    drain("a command before", "w");
    feed("the right password", GIDZORK_LET_IN, "E1");
    is("the user", gidzork_user(&handle, out, sizeof out, &(gidzork_entry){0}), GIDZORK_CONTINUES);
    start(90); string("session"); number(7); number(4096); number(1024); feed("an open", 0, "F21");
    start(98); number(2); string("exec"); byte(1); string("ls"); feed("a program", 0, "d");
    is("done twice", gidzork_command(&handle, 1000, 2, GIDZORK_SUCCESS, 2, 0), 0);
    is("not taken out", gidzork_command(&handle, 1000, 3, GIDZORK_EOF, 2, 0), GIDZORK_NOT_TAKEN);
    drain("granted", "u1");
    is("data", gidzork_data(&handle, 1000, 4, 2, 0, (const uint8_t *)"a file\n", 7), 0);
    is("its answer", gidzork_next(&handle, out, 3, &(gidzork_entry){0}), GIDZORK_CONTINUES);
    is("no room", gidzork_next(&handle, out, 3, &(gidzork_entry){0}), GIDZORK_TOO_SHORT);
    drain("data", "1");
    is("status", gidzork_command(&handle, 1000, 5, GIDZORK_EXIT_STATUS, 2, 0), 0);
    drain("status", "u1");
    is("close", gidzork_command(&handle, 1000, 6, GIDZORK_CLOSE, 2, 0), 0);
    drain("close", "u1");
    start(97); number(2); feed("the peer's close", 0, "");
    is("end", gidzork_tick(&handle, 1000, GIDZORK_TICK_END), GIDZORK_ENDED);
    is("after the end", gidzork_feed(&handle, 1000, payload, length, 0), GIDZORK_INCONSISTENT);
    gidzork_free(&handle);
    gidzork_free(&handle);
    printf(failed ? "%u things went otherwise\n" : "all went well\n", failed);
    return failed != 0;
}
