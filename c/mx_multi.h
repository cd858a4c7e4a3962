/* mx_multi.h: many HTTP/1.1 transfers over plain TCP at once, on one thread, after libcurl's multi interface.
 *
 * A multi handle does its work in mx_multi_perform, which never waits. The caller waits by itself, with poll(2), epoll(7) or a loop of its
 * own: until mx_multi_fd can be read, for at most mx_multi_timeout milliseconds. So the library starts no thread, takes no lock, installs
 * no signal handler and calls nothing back. A transfer is a request and all redirects that it follows.
 *
 *     mx_multi_open(4096, 8, &multi.at);
 *     mx_multi_add(multi, 1, "GET", 3, url, strlen(url), "", 0, "", 0, &how, &ticket, &refused);
 *     do {
 *         mx_multi_perform(multi, &running);
 *         while (mx_multi_info_read(multi, &message, &outcome.at) == MXM_OK)
 *             ...
 *         struct pollfd wait = { mx_multi_fd(multi), POLLIN, 0 };
 *         if (running > 0)
 *             poll(&wait, 1, mx_multi_timeout(multi));
 *     } while (running > 0);
 *     mx_multi_close(multi);
 *
 * What a caller owes, and nothing checks:
 * - A handle is used from its open to its close, by one call at a time, on the thread that opened it. Handles of several threads share
 *   nothing.
 * - A pointer leads to as many bytes as its length says, or to one value; it isn't null, also where the length is 0. No two of them
 *   overlap.
 * - No call from a signal handler, or from the child of a process with threads after fork(2). Such a child closes nothing that its parent
 *   uses: the descriptor of a multi handle is its parent's.
 * - malloc, realloc and free are the process's own.
 *
 * What is handed in is copied before the call returns; what comes out is copied into the caller's room, but for what each call says of
 * handles. Where memory is refused a call answers MXM_OUT_OF_MEMORY, and all is as it was. The numbers of answers and codes are libcurl's;
 * those from 100 on are the engine's own.
 */
#ifndef MX_MULTI_H
#define MX_MULTI_H

#include <stddef.h>
#include <stdint.h>

#ifdef __cplusplus
extern "C" {
#endif

/* A multi handle, and an outcome. Each is one pointer, and is passed by value; a copy is the same handle. */
typedef struct mx_multi { void *at; } mx_multi;
typedef struct mx_outcome { void *at; } mx_outcome;

/* What a call answers: the number of a CURLMcode, or the engine's own. */
typedef uint32_t mx_mcode;
enum {
    MXM_OK = 0,
    MXM_OUT_OF_MEMORY = 3,   /* memory is refused */
    MXM_ADDED_ALREADY = 7,   /* the handle is added */
    MXM_TABLE_FULL = 100,    /* 256 handles are added */
    MXM_HISTORY_FULL = 101,  /* the history has no room: mx_multi_retire makes some */
    MXM_NOT_RUNNING = 102,   /* the handle's transfer is done */
    MXM_NOT_ADDED = 103,     /* the handle isn't added */
    MXM_TICKETS_SPENT = 104, /* 4,294,967,295 tickets were given */
    MXM_BAD_ARGUMENT = 110,  /* a number that can't be taken, a request that can't be built, or an outcome in place of a multi handle */
    MXM_EMPTY = 111          /* no message waits */
};

/* What a transfer ended with: the number of a CURLcode. 0: a whole response came. 100: its head is too large. */
typedef uint32_t mx_code;

/* Stands where a number isn't known. */
#define MX_NOT_TOLD UINT32_MAX

/* Opens a multi handle. history: how many events it has room for, from 4 to 1,048,576: each transfer uses 3 or 4, and one for each pause;
 * mx_multi_retire gives them back. max_connects: how many idle connections it keeps, 64 at most. *at is written where the answer is
 * MXM_OK, and is the caller's to close. MXM_OUT_OF_MEMORY comes where memory, a descriptor or a clock is refused, MXM_BAD_ARGUMENT where a
 * number is out of its range. */
mx_mcode mx_multi_open(uint32_t history, uint32_t max_connects, void **at);

/* Ends a multi handle, with its transfers, its messages and its connections. Outcomes that were read stay. */
void mx_multi_close(mx_multi multi);

/* Drops from the history what no added handle needs. Transfers go on. */
mx_mcode mx_multi_retire(mx_multi multi);

/* How a transfer is made. */
enum { MX_HAS_BODY = 1 }; /* of flags: the request has a body, an empty one too */
typedef struct mx_how {
    uint32_t flags;
    uint32_t timeout_ms;    /* the longest that it may take, all its redirects together; 0: no limit. It ends with 28 then */
    uint32_t max_redirects; /* how many redirects are followed, 255 at most */
    uint32_t reserved;      /* 0 */
} mx_how;

/* Adds a handle, a number of the caller's, with its transfer. method: GET, HEAD, POST, PUT, DELETE or OPTIONS. url: text of an http URL
 * without a user name or a password. fields: lines "Name: value\r\n", 64 at most, of which white space around a value is no part;
 * User-Agent is one of them; Host, Content-Length, Transfer-Encoding and the like are the engine's. body: at most 1,048,576 bytes.
 * MXM_OK: *ticket numbers this addition. MXM_BAD_ARGUMENT: *refused is the CURLcode of the refusal: 1 the scheme or the method, 3 the URL
 * or a field, 63 the body. Nothing was added but with MXM_OK. */
mx_mcode mx_multi_add(mx_multi multi, uint32_t handle, const void *method, size_t method_len, const void *url, size_t url_len,
                      const void *fields, size_t fields_len, const void *body, size_t body_len, const mx_how *how,
                      uint32_t *ticket, mx_code *refused);

/* Has connections to a host be opened at addresses of the caller's, in their order, in place of those that stood for it: the host isn't
 * looked up. host: as the field Host has it, without a port, in any case. addresses: text, IPv4 or IPv6 without brackets, with a comma
 * between any two; the port is the URL's. Without an address the host is looked up again. Connections that are open stay, and serve
 * transfers that follow. MXM_BAD_ARGUMENT: a piece between commas is no address, or one of the texts isn't UTF-8. */
mx_mcode mx_multi_resolve(mx_multi multi, const void *host, size_t host_len, const void *addresses, size_t addresses_len);

/* Removes a handle, whether its transfer runs, is done or was read: no message of it comes any more. Its connection closes at the next
 * mx_multi_perform. MXM_OK, also where it isn't added. */
mx_mcode mx_multi_remove(mx_multi multi, uint32_t handle);

/* Pauses and resumes a handle's transfer. A pause that changes nothing is MXM_OK. */
mx_mcode mx_multi_pause(mx_multi multi, uint32_t handle);
mx_mcode mx_multi_unpause(mx_multi multi, uint32_t handle);

/* Goes on with all transfers as far as that is possible without a wait, but for the lookup of a host's name, which blocks: mx_multi_resolve
 * saves a caller that. At most 64 transfers are under way at a time; the others follow in the order of their additions. *running: how many
 * transfers aren't done, those that are paused among them. */
mx_mcode mx_multi_perform(mx_multi multi, uint32_t *running);

/* The descriptor to wait for: it can be read where mx_multi_perform has something to do. It is the multi handle's own. */
int32_t mx_multi_fd(mx_multi multi);

/* How many milliseconds a wait for the descriptor may last: 0 for none, -1 for no limit. */
int64_t mx_multi_timeout(mx_multi multi);

typedef struct mx_message {
    uint32_t handle;
    uint32_t ticket; /* of the addition whose transfer is done */
    mx_code code;
    uint32_t left;   /* how many messages wait behind it */
} mx_message;

/* Reads the message that waited longest: each addition gets one at most, none after its removal. MXM_OK: *message is written, and *at is
 * its outcome, the caller's to close. With another answer nothing is written and no message is lost. */
mx_mcode mx_multi_info_read(mx_multi multi, mx_message *message, void **at);

enum { MX_STATE_NOT_ADDED, MX_STATE_RUNNING, MX_STATE_PAUSED, MX_STATE_DONE, MX_STATE_READ };
typedef struct mx_state {
    uint32_t state;
    uint32_t ticket; /* MX_NOT_TOLD where the handle isn't added */
    mx_code code;    /* MX_NOT_TOLD where the transfer isn't done */
} mx_state;

/* The state of a handle. */
mx_mcode mx_multi_state(mx_multi multi, uint32_t handle, mx_state *state);

/* Writes the handles that are added, in the order of their additions, as many as `room` has place for. The answer is how many are added. */
uint32_t mx_multi_handles(mx_multi multi, uint32_t *handles, size_t room);

typedef struct mx_end {
    mx_code code;
    uint32_t status;   /* of the last response; 0 where none was read */
    uint32_t hops;     /* how many requests were made: one more than redirects were followed */
    uint32_t reserved; /* 0 */
    uint64_t body;     /* the length of the body */
} mx_end;

/* What an outcome tells in numbers. */
mx_mcode mx_outcome_end(mx_outcome outcome, mx_end *end);

/* The status of a hop's response. Hops are counted from 0: the last is the response. 0 where it has none, and past the last. */
uint32_t mx_outcome_status(mx_outcome outcome, uint32_t hop);

/* Each of these copies bytes from the place `from` on, as many as there are and as `room` has place for, and answers how many.
 * request: what was sent for a hop. heads: the heads of a hop's response, interim ones too. wire: all bytes of a hop's response.
 * body: the content of the last response, where the code is 0. Reads of it in order take no longer the further they come. */
uint64_t mx_outcome_request(mx_outcome outcome, uint32_t hop, uint64_t from, void *out, size_t room);
uint64_t mx_outcome_heads(mx_outcome outcome, uint32_t hop, uint64_t from, void *out, size_t room);
uint64_t mx_outcome_wire(mx_outcome outcome, uint32_t hop, uint64_t from, void *out, size_t room);
uint64_t mx_outcome_body(mx_outcome outcome, uint64_t from, void *out, size_t room);

/* Tells where a part of the same body lies, and how long it is: nothing is copied. Parts are counted from 0, and joined they are the body:
 * one where its length was told, else one for each chunk. *at stands until the outcome is closed. MXM_EMPTY after the last. */
mx_mcode mx_outcome_part(mx_outcome outcome, uint32_t part, const uint8_t **at, uint64_t *len);

/* Ends an outcome. It may outlive its multi handle. */
void mx_outcome_close(mx_outcome outcome);

#ifdef __cplusplus
}
#endif

#endif
