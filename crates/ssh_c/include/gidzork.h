/*
 * Gidzork: the server's side of an SSH connection above its encrypted transport (RFC 4252, 4254,
 * 4256), for programs that have the transport: packets, ciphers and the exchange of keys.
 *
 * The library never calls out. The program feeds it what comes, one input at a time, and takes out
 * what came of it, before it feeds the next one:
 *
 *     gidzork_feed(..), gidzork_data(..), ..        one input
 *     while (gidzork_next(..) == GIDZORK_CONTINUES) ..    what came of it, in order
 *
 * Rules that a program has to keep; with them no call reads or writes beside what it is given.
 *
 *   - A handle starts as all bytes 0, is touched by nobody else, and is moved only whole: of two
 *     copies only one is used.
 *   - Each pointer is valid for the length beside it and not NULL, at length 0 too. What is written
 *     (out, entry, question, handle) does not overlap what another argument points to.
 *   - A bool is 0 or 1. A session id has less than 2^32 bytes.
 *   - A handle is used by one thread, the same one all its life; different handles by different
 *     threads, as they like. No call is made from a signal handler.
 *   - malloc, realloc and free are of one allocator, and align to 16 bytes.
 *
 * Who owns what: the library copies what it is given and keeps no pointer of the program's. What a
 * connection has is freed by gidzork_free, what a file server has by gidzork_sftp_free, and by
 * nothing else.
 *
 * Moments are milliseconds since 1970. Channels go by this side's numbers. A ticket is any number
 * that the program gives with a command, under which it is told what came of it.
 *
 * Text and fields are spelled as in RFC 4251, section 5: a string is its length as uint32, the high
 * byte first, and its bytes.
 */
#ifndef GIDZORK_H
#define GIDZORK_H

#include <stdbool.h>
#include <stddef.h>
#include <stdint.h>

#ifdef __cplusplus
extern "C" {
#endif

/* A connection, or none: all bytes 0 is none. */
typedef struct { struct { void *at; } slot; bool live; } gidzork_handle;

/* How a call went. After an input that answered 1, or 4 to 12, the connection is spent: what waits is
 * still to be taken out and sent, and each later input answers GIDZORK_INCONSISTENT. Where the number
 * is 13 or more, nothing was done. GIDZORK_NO_MEMORY: nothing was done, or the connection is spent. */
enum {
    GIDZORK_CONTINUES = 0,     /* it went well, and the connection goes on */
    GIDZORK_ENDED = 1,         /* the connection ended well: close it behind what waits */
    GIDZORK_NOTHING = 2,       /* nothing is there to be told */
    GIDZORK_NO_MEMORY = 3,
    GIDZORK_ENCODING = 4,      /* a field of the payload does not fit its layout */
    GIDZORK_INCONSISTENT = 5,  /* the peer did not keep to the protocol, or the connection is spent */
    GIDZORK_PENDING = 6,       /* too much came between both sides' KEXINIT */
    GIDZORK_KEY = 7,           /* the blob of a key or a signature does not fit its layout */
    GIDZORK_UNSUPPORTED = 8,   /* keyboard-interactive was answered as not supported */
    GIDZORK_CHANNELS_FULL = 9,
    GIDZORK_KEEPALIVE_TIMEOUT = 10,
    GIDZORK_INACTIVITY_TIMEOUT = 11,
    GIDZORK_FAILED = 12,       /* does not come */
    GIDZORK_NO_CONNECTION = 13, /* the handle holds none, or no file server */
    GIDZORK_TOO_SHORT = 14,    /* out is shorter than the length that is told: call again with more */
    GIDZORK_BAD_ARGUMENT = 15, /* a number, or a text that is not UTF-8, that the call does not take */
    GIDZORK_NOT_NOW = 16,      /* commands, or answers to opens, are not taken now */
    GIDZORK_NOT_TAKEN = 17     /* something is to be taken out by gidzork_next first */
};

/* What becomes of a channel that the peer opens. */
enum {
    GIDZORK_REFUSE = 0,
    GIDZORK_ACCEPT = 1,
    GIDZORK_KEEP = 2           /* it waits for gidzork_answer_open */
};

/* Methods of authentication: bits of gidzork_setup.methods. */
enum {
    GIDZORK_METHOD_NONE = 1,
    GIDZORK_METHOD_PASSWORD = 2,
    GIDZORK_METHOD_PUBLICKEY = 4,
    GIDZORK_METHOD_KEYBOARD_INTERACTIVE = 8
};

/* How a server is set up. */
typedef struct {
    uint32_t methods;            /* which methods can continue at first */
    uint32_t sessions;           /* GIDZORK_REFUSE, _ACCEPT or _KEEP, for each type of channel */
    uint32_t direct_tcpip;
    uint32_t direct_streamlocal;
    uint32_t window_size;        /* bytes that each channel grants its peer */
    uint32_t maximum_packet_size; /* bytes of data in one message */
    uint32_t max_auth_attempts;  /* rejections after which the next request ends it; 0 sets no end */
    uint32_t keepalive_max;      /* keepalive ticks without a word of the peer; 0 sets no end */
    uint64_t auth_rejection_time; /* how long a refusal is held, in milliseconds */
    uint64_t auth_rejection_time_initial; /* the same of a first request by method none */
    uint64_t rekey_bytes;        /* bytes each way under one set of keys */
    bool repeatable;             /* the transport begins an exchange of keys where it is asked to */
} gidzork_setup;

/* What happened. length is how many bytes of it stand at the start of out.
 *
 *    1 a frame to be sent: its payload. number: the moment before which it is not to go out, 0 for
 *      none; the frames behind it go out behind it. A payload of the one byte 20 asks the transport
 *      to begin an exchange of keys.
 *    2 the channel may be used: number bytes may be sent on it, second in one message
 *    3 number bytes more may be sent on the channel
 *    4 number bytes may be sent on the channel in all, as told of 3
 *    5 data: the bytes             6 data of the type second: the bytes; 1 is standard error
 *    7 no more data follow
 *    8 the peer closed the channel, and its number is unknown. Behind GIDZORK_CLOSE, which this side
 *      gives, it is unknown at once, and nothing is told of it any more.
 *    9 an open of this side was confirmed    10 it was refused, for the reason number
 *   requests of the peer on the channel; number is 1 where an answer is wanted (gidzork_command):
 *   11 a terminal: string type, uint32 columns, rows, width and height in pixels, string modes
 *   12 a shell                    13 a program: its command line      14 a subsystem: its name
 *   15 a variable: string name, string value
 *   16 X11: byte single, string protocol, string cookie, uint32 screen
 *   17 the agent (it is refused)
 *   18 the terminal's size: uint32 columns, rows, width, height in pixels
 *   19 a signal: its name, without SIG
 *   20 a forward of the slot number was answered: second is the port   21 one was taken back
 *   22 the slot number: a sign of life
 *   30 the command with the ticket number was done     31 it opens the channel
 *   32 it was refused: second is 1 ended, 2 for clients, 3 nobody is let in, 4 no such channel,
 *      5 no such open, 6 not confirmed yet, 7 nothing more goes out there, 8 too long, 9 no number left
 *   40 the user is let in
 *   opens of the peer, which were answered by the setup, or wait (GIDZORK_KEEP):
 *   41 a session
 *   42 direct-tcpip: string host, uint32 port, string originator, uint32 port
 *   43 direct-streamlocal: string path
 *   44 a forward was asked for, and refused: string address, uint32 port     45 one taken back
 */
typedef struct {
    uint32_t kind;
    uint32_t channel;
    uint64_t number;
    uint32_t second;
    size_t length;
} gidzork_entry;

/* What a payload asks of a user. Each begins with string user; length bytes stand at the start of out.
 *
 *    1 to be let in by method none
 *    2 by a password: string password
 *    3 whether a key may sign: string algorithm, string key
 *    4 by a key: string algorithm, string key, string message, string signature. The program checks
 *      that this is the key's signature of the message by the algorithm, and refuses an algorithm
 *      that is not the key's; GIDZORK_SIGNATURE_HOLDS is its word that it is so.
 *    5 by prompts: string submethods
 *    6 by responses: string submethods, uint32 count, and so many strings
 *
 * certificate: the key is an OpenSSH certificate. Nobody is let in by one. */
typedef struct {
    uint32_t kind;
    bool certificate;
    size_t length;
} gidzork_question_t;

/* What the program says to the question of a payload. */
enum {
    GIDZORK_REFUSED = 0,       /* the methods of the setup can continue */
    GIDZORK_LET_IN = 1,        /* or: the key may sign */
    GIDZORK_SIGNATURE_HOLDS = 2, /* and the user is let in */
    GIDZORK_MORE_NEEDED = 3    /* it was right, and more is needed, by the methods of the setup */
};

/* Commands of gidzork_command. */
enum {
    GIDZORK_EOF = 1,           /* no more data follow on the channel */
    GIDZORK_CLOSE = 2,
    GIDZORK_SUCCESS = 3,       /* answers the oldest request on the channel that wants it */
    GIDZORK_FAILURE = 4,
    GIDZORK_EXIT_STATUS = 5,   /* number */
    GIDZORK_XON_XOFF = 6,      /* number: whether the client may do the flow control */
    GIDZORK_KEEPALIVE = 7
};

/* Inputs of gidzork_tick. */
enum {
    GIDZORK_TICK_KEEPALIVE = 1,
    GIDZORK_TICK_INACTIVITY = 2,
    GIDZORK_TICK_REKEY = 3,
    GIDZORK_TICK_END = 4       /* nothing more comes from the peer */
};

/* 1. */
uint32_t gidzork_version(void);

/* Opens a connection in a handle that holds none, once the first exchange of keys is over: its
 * session id (RFC 4253 section 7.2), and the line by which the peer's software named itself, without
 * its line end. GIDZORK_CONTINUES; GIDZORK_BAD_ARGUMENT where the handle holds one, or a number of
 * the setup is none; GIDZORK_NO_MEMORY. */
uint32_t gidzork_open(gidzork_handle *handle, const gidzork_setup *setup,
                      const uint8_t *session_id, size_t session_id_length,
                      const uint8_t *remote, size_t remote_length);

/* Frees what the handle holds; afterwards it holds none. */
void gidzork_free(gidzork_handle *handle);

/* What this payload would ask of a user if it were fed now, and nothing is changed: serving it asks
 * just this. GIDZORK_NOTHING where it asks nothing. It is to be asked of payloads numbered 50 and 61.
 * GIDZORK_TOO_SHORT: question->length says how long out has to be. */
uint32_t gidzork_question(gidzork_handle *handle, uint64_t moment,
                          const uint8_t *payload, size_t payload_length,
                          uint8_t *out, size_t out_length, gidzork_question_t *question);

/* Takes one opened payload, from its message number on, with what the program says to its question. */
uint32_t gidzork_feed(gidzork_handle *handle, uint64_t moment,
                      const uint8_t *payload, size_t payload_length, uint32_t verdict);

/* Takes a payload numbered 20 to 49 of a later exchange of keys, which the transport makes: whether
 * it takes the new keys into use behind it. Until then nothing but what the transport sends goes out:
 * the frames that are to go out wait, and so do commands. */
uint32_t gidzork_exchange(gidzork_handle *handle, uint64_t moment,
                          const uint8_t *payload, size_t payload_length, bool keys_in_use);

/* Sends bytes on a channel: ext is 0 for data, 1 for standard error. They wait where the window is
 * too small; while any wait, commands are not taken. */
uint32_t gidzork_data(gidzork_handle *handle, uint64_t moment, uint64_t ticket, uint32_t channel,
                      uint32_t ext, const uint8_t *bytes, size_t length);

/* Gives a command. */
uint32_t gidzork_command(gidzork_handle *handle, uint64_t moment, uint64_t ticket, uint32_t kind,
                         uint32_t channel, uint32_t number);

/* Tells which signal ended the program on the channel: its name, without SIG. */
uint32_t gidzork_exit_signal(gidzork_handle *handle, uint64_t moment, uint64_t ticket,
                             uint32_t channel, bool core_dumped,
                             const uint8_t *signal, size_t length);

/* Answers an open of the peer's that waits: reason is 0 to accept it, or 1 prohibited, 2 the
 * connection failed, 3 the type is not known, 4 short of resources (RFC 4254 section 5.1). */
uint32_t gidzork_answer_open(gidzork_handle *handle, uint64_t moment, uint64_t ticket,
                             uint32_t channel, uint32_t reason);

/* Ends the connection, for a reason of RFC 4253 section 11.1 (1, 2, 7, 10, 11, 12, 14 or 15). */
uint32_t gidzork_disconnect(gidzork_handle *handle, uint64_t moment, uint64_t ticket,
                            uint32_t reason, const uint8_t *description, size_t length);

/* Takes a tick, or the end of what comes. */
uint32_t gidzork_tick(gidzork_handle *handle, uint64_t moment, uint32_t kind);

/* Takes out what happened next. GIDZORK_NOTHING: all was taken out. GIDZORK_TOO_SHORT: nothing was;
 * entry->length says how long out has to be. */
uint32_t gidzork_next(gidzork_handle *handle, uint8_t *out, size_t out_length,
                      gidzork_entry *entry);

/* Whether gidzork_data, _command, _exit_signal and _disconnect are taken now: no exchange of keys
 * runs and on no channel data wait. */
bool gidzork_commands_wanted(gidzork_handle *handle);

/* Whether gidzork_answer_open is taken now: no exchange of keys runs. */
bool gidzork_replies_wanted(gidzork_handle *handle);

/* The name of the user who was let in: entry->length bytes. GIDZORK_NOTHING before. */
uint32_t gidzork_user(gidzork_handle *handle, uint8_t *out, size_t out_length,
                      gidzork_entry *entry);

/*
 * File servers, by version 3 of the SSH file transfer protocol (draft-ietf-secsh-filexfer-02). One
 * serves one channel, on which the subsystem "sftp" was asked for: the data of the channel go in as
 * they come, and what is given out is sent on it. Its files are in memory, there are none at first,
 * and they go with it. The rules of a gidzork_handle hold of its handle too.
 *
 * It serves SSH_FXP_INIT, OPEN, CLOSE, READ, WRITE, LSTAT, FSTAT, STAT, REMOVE, REALPATH and RENAME,
 * on files in no folders; a file has at most 16 MiB. Any other request, as those of folders and those
 * that set attributes, is answered by SSH_FX_OP_UNSUPPORTED.
 */

/* A file server, or none: all bytes 0 is none. */
typedef struct { struct { void *at; } slot; bool live; } gidzork_files;

/* Opens a file server in a handle that holds none. GIDZORK_CONTINUES; GIDZORK_BAD_ARGUMENT where the
 * handle holds one; GIDZORK_NO_MEMORY. */
uint32_t gidzork_sftp_open(gidzork_files *files);

/* Frees what the handle holds, with its files; afterwards it holds none. */
void gidzork_sftp_free(gidzork_files *files);

/* Takes the next bytes that the client sent, of any length: behind them the answers to each request
 * that is whole by now wait for gidzork_sftp_next. A request of 30 bytes may be answered by 65 kB.
 * GIDZORK_CONTINUES; GIDZORK_NOT_TAKEN, and nothing was done, where answers wait; GIDZORK_ENCODING
 * where a packet has no length that is allowed, or no id: the answers to those before it wait;
 * GIDZORK_NO_MEMORY: those to some of them wait. After either of these the server is spent, and the
 * answer is GIDZORK_INCONSISTENT. */
uint32_t gidzork_sftp_feed(gidzork_files *files, const uint8_t *piece, size_t length);

/* Takes out the next bytes of the answers, as many as there are and out has room for: *count is how
 * many. GIDZORK_CONTINUES; GIDZORK_NOTHING where none wait; GIDZORK_TOO_SHORT where out_length is 0.
 * Where it is not GIDZORK_CONTINUES, nothing was done. */
uint32_t gidzork_sftp_next(gidzork_files *files, uint8_t *out, size_t out_length, size_t *count);

/* How the stream of the client ended, where nothing more comes; nothing is changed.
 * GIDZORK_CONTINUES: behind a request; GIDZORK_ENCODING: inside one; GIDZORK_INCONSISTENT: the server
 * is spent. */
uint32_t gidzork_sftp_end(gidzork_files *files);

#ifdef __cplusplus
}
#endif
#endif
