/* odb_batch in process: checks, plans, matches, runs and replays batches of requests in JSON (OASIS
 * OData JSON Format 4.01, section 19).
 *
 * A call takes documents as bytes, writes what the command of its name prints to a buffer of the
 * caller, and returns a status. docs/embedding.md shows how to build and call the library.
 *
 *   Documents  UTF-8 JSON of at most 16,777,216 bytes; a longer one is refused (F01). A document may be
 *              NULL, which is an empty one. It is read during the call alone.
 *   Text       `text` is a buffer of `text_size` bytes. If the text fits, it is written to the start of
 *              the buffer, without a 0 at its end, and the rest of the buffer stays as it was; else
 *              nothing is written. `text` may be NULL, which is a buffer of size 0.
 *   Length     `*text_length` is always set, to the length of the text whether it fits or not, and to 0
 *              if there is none. It must not be NULL.
 *   Overlap    The text, its length and the documents must not overlap.
 *   Ownership  The caller owns all memory that it passes. Nothing has to be freed but a live run.
 *   Memory     A call allocates by `malloc` and `realloc`, O(n) bytes for n bytes of documents and text,
 *              and frees all of it before it returns, but for what a live run keeps. If an allocation
 *              fails, the status says so.
 *   Threads    Nothing is kept between calls but in a live run: any number of threads may call at once. Do not call
 *              from a signal handler, nor in the forked child of a process with threads.
 *   Stack      A thread with a stack of ODB_STACK_BYTES can make any call: none recurses deeper than documents may
 *              nest, 127 levels. This is measured, and a test makes each call on such a stack; it is not proved.
 *   Cost       O(n log n) time for n bytes of documents and text, whatever the names in them.
 *   Seed       The tables of names start from `seed`. Draw it once per process by `odb_seed` and keep
 *              it secret, so that nobody can choose names that make a call slow. 0 is no seed: it is as
 *              safe, and look-ups cost a few comparisons more. No text depends on the seed.
 *
 *   Size 0     A pointer whose size is 0 may be any: it is not looked at.
 *
 * The calls without a C compiler are the exported functions: there, a pointer with size 0 may be any address that is aligned for its
 * type, as 8, but not NULL. The functions at the end of this header pass the address of a byte in place of it. */

#ifndef ODB_BATCH_H
#define ODB_BATCH_H

#include <stddef.h>
#include <stdint.h>

#if defined(__linux__)
#include <sys/random.h>
#endif

#ifdef __cplusplus
extern "C" {
#endif

#if defined(_WIN32)
/* RtlGenRandom of advapi32, under its name in that library. */
unsigned char __stdcall SystemFunction036(void *buffer, unsigned long size);
#endif

#define ODB_VERSION_MAJOR 0
#define ODB_VERSION_MINOR 2
#define ODB_VERSION_PATCH 0
#define ODB_VERSION (ODB_VERSION_MAJOR * 10000 + ODB_VERSION_MINOR * 100 + ODB_VERSION_PATCH)

/* How much stack a thread has to have for any call. A call and the C library's own use of it take three quarters at
 * most; the rest is for the caller, its thread-local variables and its signal handlers. */
#define ODB_STACK_BYTES 262144

/* What a call returns. */
enum {
    ODB_DONE = 0,          /* the text is the result */
    ODB_REFUSED = 1,       /* a document is refused; the text is the line of its fault, or of each */
    ODB_WRONG_OPTION = 2,  /* an option or a place is none of its values, or no request has the position or id; no text */
    ODB_OUT_OF_MEMORY = 4, /* an allocation failed; no text */
    ODB_SMALL_BUFFER = 5   /* the text is longer than the buffer; nothing is written */
};

/* What `odb_run_start`, `odb_run_start_unit` and `odb_run_report` return if the event may not come: the first cause
 * that applies. The run is as it was. */
enum {
    ODB_ALREADY_STARTED = 11, /* S1: the request has started before */
    ODB_STOPPED = 12,         /* S2: the run is stopped, by an error or by `odb_run_stop` */
    ODB_UNIT_FAILED = 13,     /* S3: the unit of the request has failed */
    ODB_WAITING = 14,         /* S4: a request or group that it needs has not succeeded */
    ODB_WIDTH_REACHED = 15,   /* S5: the width limit is reached */
    ODB_NOT_RUNNING = 21,     /* P1: the request is not running */
    ODB_BAD_STATUS = 22       /* P2: the status is not from 200 to 599 */
};

/* What `odb_resolve` returns if a request is not sent. */
enum {
    ODB_UNREADABLE = 31, /* the URL or the Location has a control character, a text is not UTF-8, or the URL continues no reference */
    ODB_OUTSIDE = 32,    /* it leads out of the roots */
    ODB_NO_LOCATION = 33 /* the POST that it refers to was answered without a Location */
};

/* `mode`: what an error, a status from 400 to 599, does to a run, or to a service whose responses are matched. */
enum {
    ODB_CONTINUE = 0, /* what depends on the request is skipped */
    ODB_STOP = 1      /* nothing is started any more */
};

/* `order`: which step of a replay, or of a live run, comes next. */
enum {
    ODB_FIRST = 0, /* finish each request before the next starts, by position */
    ODB_LAST = 1,  /* the same from the last position */
    ODB_WIDE = 2   /* start all that may start, then report the first */
};

/* `form`: how a text is written. A canonical text, a response and a trace are the same in both. */
enum {
    ODB_LINES = 0, /* lines of words */
    ODB_JSON = 1   /* one line of JSON, as `--json` of the command writes */
};

/* The greatest `width`, which is the number of requests that may run at once. The least is 1. */
#define ODB_MAX_WIDTH 10000

/* The greatest length of a document in bytes, and how many requests a batch may have. */
#define ODB_MAX_DOCUMENT 16777216
#define ODB_MAX_REQUESTS 10000

/* Returns the version of the library that is linked or loaded. It fits this header if
 * `odb_version() / 100 == ODB_VERSION / 100`. */
uint32_t odb_version(void);

/* Checks a batch. The result is the line `ok N requests M groups`, and `form` is ODB_LINES or ODB_JSON: else returns
 * ODB_WRONG_OPTION. Otherwise returns ODB_DONE, ODB_REFUSED, ODB_OUT_OF_MEMORY or ODB_SMALL_BUFFER. So does each command; the end
 * of this header has the same calls without a form, as `odb_check`, by which the text is lines. */
uint32_t odb_check_as(const uint8_t *batch, size_t batch_size, uint32_t form,
                      uint8_t *text, size_t text_size, size_t *text_length, uint64_t seed);

/* Checks a batch as `odb_check_as` does. If it is refused, the text has a line for each fault of the first phase that has any:
 * the document, the form of its requests, ids and groups, names and references. Returns what `odb_check_as` does. */
uint32_t odb_check_all_as(const uint8_t *batch, size_t batch_size, uint32_t form,
                          uint8_t *text, size_t text_size, size_t *text_length, uint64_t seed);

/* Plans a batch. The result has a line per request: position, id, level, group and dependencies.
 * Returns what `odb_check_as` does. */
uint32_t odb_plan_as(const uint8_t *batch, size_t batch_size, uint32_t form,
                     uint8_t *text, size_t text_size, size_t *text_length, uint64_t seed);

/* Makes the canonical text of a batch, which is one text for all documents of the same batch. The result
 * is this text and a newline, in each form. Returns what `odb_check_as` does. */
uint32_t odb_canon_as(const uint8_t *batch, size_t batch_size, uint32_t form,
                      uint8_t *text, size_t text_size, size_t *text_length, uint64_t seed);

/* Runs a batch by recorded events. The result is the response of the finished run and a newline, in each form.
 * `mode` is ODB_CONTINUE or ODB_STOP, and `width` is from 1 to ODB_MAX_WIDTH: else returns
 * ODB_WRONG_OPTION. Otherwise returns what `odb_check_as` does. */
uint32_t odb_run_as(const uint8_t *batch, size_t batch_size, const uint8_t *events, size_t events_size,
                    uint32_t mode, uint32_t width, uint32_t form,
                    uint8_t *text, size_t text_size, size_t *text_length, uint64_t seed);

/* Replays a batch by recorded outcomes. The result is the response and a newline, after the lines of
 * the trace if `trace` is 1, in each form. `order` is ODB_FIRST, ODB_LAST or ODB_WIDE, and `trace` is 0 or 1: else
 * returns ODB_WRONG_OPTION. `mode`, `width` and the other statuses are those of `odb_run_as`. */
uint32_t odb_replay_as(const uint8_t *batch, size_t batch_size, const uint8_t *outcomes, size_t outcomes_size,
                       uint32_t mode, uint32_t width, uint32_t order, uint32_t trace, uint32_t form,
                       uint8_t *text, size_t text_size, size_t *text_length, uint64_t seed);

/* Matches the response document of a service against a batch. The result is the line `ok N responses`, and a line per request
 * with its id and status. In the mode ODB_STOP, if a response has a status from 400 to
 * 599, each request without a response is read as answered 424; in ODB_CONTINUE each has to have one. If `strict` is 1,
 * some finished run has to answer these statuses (F76 to F78); if it is 2, a run that may also send a group as one, as
 * `odb_run_start_unit` does. `mode` is one of these two, `strict` is 0, 1 or 2, and `form` is ODB_LINES or ODB_JSON: else
 * returns ODB_WRONG_OPTION. Otherwise returns what `odb_check_as` does. */
uint32_t odb_match_with(const uint8_t *batch, size_t batch_size, const uint8_t *responses, size_t responses_size,
                        uint32_t mode, uint32_t strict, uint32_t form,
                        uint8_t *text, size_t text_size, size_t *text_length, uint64_t seed);

/* Writes the rest of a batch by the response document of a service: what may be sent again, as a batch of its own (OData
 * JSON Format 4.01, sections 19.1 and 19.4). The result is this text, with each body as the bytes of the document, and a
 * newline; it is the same in each form. A request may be sent again if it was answered 424, 429 or 503; or 408, 502 or 504,
 * and it is a GET, a PUT or a DELETE. A group is in the rest as a whole, and what a request of the rest depends on was
 * answered 2xx or is in the rest. A URL that refers to a request that was answered 2xx gets its Location, and an If-Match or
 * If-None-Match that is `$` and the id of an earlier request which is not in the rest gets its ETag.
 * `mode` and `form` are those of `odb_match_with`, and responses that do not fit the batch are refused as there; else, if a
 * Location is missing or can be in no URL, the batch is refused by F90, and if an ETag is missing by F91. Returns what
 * `odb_match_with` does. */
uint32_t odb_rest(const uint8_t *batch, size_t batch_size, const uint8_t *responses, size_t responses_size,
                  uint32_t mode, uint32_t form,
                  uint8_t *text, size_t text_size, size_t *text_length, uint64_t seed);

/* Writes what a code means: that of a fault, as F41, or of a cause by which a start or a report is refused, as S4 or P1. The text is
 * what `odb_batch explain` prints, without the newline at its end: a line with the code, the name and the places; what it means and
 * how it is repaired; and two lines with a document that is refused by it and one that is not, after `refused: ` and `accepted: `.
 * Returns ODB_DONE, ODB_SMALL_BUFFER, or ODB_WRONG_OPTION if there is no such code. Allocates nothing. */
uint32_t odb_explain(const uint8_t *code, size_t code_size,
                     uint8_t *text, size_t text_size, size_t *text_length);

/* Writes what packages for other languages need to know of the library, as a JSON object, so that none keeps a copy:
 *
 *   forms, modes, orders, states, steps   the names of the values of `form`, `mode` and `order`, of the states ODB_STATE_.., and of the
 *                      steps ODB_STEP_.., in the order of their numbers
 *   limits             `document_bytes` and `document_levels`, how long a document may be and how deep it may nest; `requests` and
 *                      `width`, ODB_MAX_REQUESTS and ODB_MAX_WIDTH; and `body_levels`, how deep the body of a report may nest
 *   headers            names in lower case, and prefixes of such names: `not_inherited`, those of the request that carries a batch that
 *                      its requests do not have; `allowed`, those that a request of a batch may have for itself; `of_connection` and
 *                      `usually_dropped`, those that clients set by themselves, of which the first never count; and `not_shown`, those
 *                      of an answer that the response to the batch leaves out
 *   preferences        those of `Prefer` that are for the batch alone
 *   reserved_ids       ids of requests to which no URL can refer (OData JSON Format 4.01, section 19.2)
 *
 * Returns ODB_DONE or ODB_SMALL_BUFFER. Allocates nothing, and is the same text in each call. */
uint32_t odb_constants(uint8_t *text, size_t text_size, size_t *text_length);

/* Where an element begins and ends in a document: its bytes are those from `offset` up to `end`. */
typedef struct odb_position {
    size_t line;   /* from 1 */
    size_t column; /* from 1, in characters of UTF-8 */
    size_t offset; /* in bytes, from 0 */
    size_t end;    /* likewise, after its last byte */
} odb_position;

/* Sets `*position` to where the element that a place names begins and ends in a document. `place` is the last word in the line
 * of a fault: `batch`, `outcomes`, `responses` or `events` for a document, or the path to an element, as `/requests/3`. `batch`
 * and `/requests/3` are in the batch, all others in the second document. If there is no such element, the position is that
 * of the document's value. If the document is not JSON (F02) and the place is a document, it is that of the first byte that
 * cannot be there, or the end, and ends there: this one is tested, not proved. Returns ODB_DONE; or, with `*position` as it was,
 * ODB_WRONG_OPTION if the text is no place, or ODB_OUT_OF_MEMORY. `position` must not be NULL, nor overlap the document or
 * the place. Takes O(n) time for a document of n bytes; for F02 O(n log k), if the wrong token has k bytes. */
uint32_t odb_where(const uint8_t *document, size_t document_size,
                   const uint8_t *place, size_t place_size, odb_position *position);

/* Where a part of a request lies: `length` bytes from `start` on. `start` is ODB_NONE and `length` 0 if the request has
 * no such part. */
typedef struct odb_part {
    size_t start;
    size_t length;
} odb_part;

#define ODB_NONE SIZE_MAX

/* A fault of a batch: where the words of its line lie in a text, and where the element of its place begins and ends. */
typedef struct odb_fault {
    odb_part code;  /* as F41 */
    odb_part name;  /* as ForwardName */
    odb_part place; /* `batch`, or the path to an element, as /requests/3 */
    odb_position position;
} odb_fault;

/* Gives all faults of a batch, those of `odb_check_all_as` in its order. The text has a line for each, as `fault F41 ForwardName
 * /requests/3`, and `faults` is a buffer of `faults_size` structs; it may be NULL, which is one of size 0. A position is the
 * one that `odb_where` finds. `*count` is set to the number of faults; it must not be NULL. Returns ODB_DONE, with no text, if
 * there are none, and else ODB_REFUSED; or, with both buffers as they were, ODB_SMALL_BUFFER if one of them has too little
 * room: `*text_length` and `*count` say how much is needed; or ODB_OUT_OF_MEMORY, and both are 0. Takes O(n log n) time for a
 * document of n bytes, however many faults it has. */
uint32_t odb_faults(const uint8_t *batch, size_t batch_size,
                    uint8_t *text, size_t text_size, size_t *text_length,
                    odb_fault *faults, size_t faults_size, size_t *count, uint64_t seed);

/* What is to be sent of a request: where its parts lie in a text, and where its body lies in the document. */
typedef struct odb_request {
    odb_part id;
    odb_part method;  /* in upper case, as POST */
    odb_part url;     /* as the batch has it */
    odb_part rest;    /* of the URL after the id that it refers to: /Lines of $a/Lines; else the whole URL */
    odb_part headers; /* a JSON object of strings, names in lower case; an empty one if there are none */
    odb_part group;   /* the atomicity group; ODB_NONE if it has none */
    odb_part needs;   /* the names in its line of `odb_plan_as`, with commas between them; of length 0 if there are none */
    odb_part body;    /* in the document, the bytes as they were written; ODB_NONE if it has none */
    size_t reference; /* the position of the request that the URL refers to, or ODB_NONE */
} odb_request;

/* Gives what is to be sent of each request of a batch, in the order of the batch. The text has all parts but the bodies,
 * which lie in the document. `requests` is a buffer of `requests_size` structs; it may be NULL, which is one of size 0.
 * `*count` is set to the number of requests; it must not be NULL. Returns ODB_DONE; or, with both buffers as they were,
 * ODB_SMALL_BUFFER if one of them has too little room: `*text_length` and `*count` say how much is needed. If the batch is
 * refused or an allocation fails, `*count` is 0, `requests` is as it was, and it returns what `odb_check_as` does: the text is
 * the line of the fault. Takes O(n log n) time for n bytes of the document, and copies no body. */
uint32_t odb_requests(const uint8_t *batch, size_t batch_size,
                      uint8_t *text, size_t text_size, size_t *text_length,
                      odb_request *requests, size_t requests_size, size_t *count, uint64_t seed);

/* What a service has answered a request: where id and group lie in a text, and headers and body in the document. */
typedef struct odb_response {
    odb_part id;
    odb_part group;   /* the atomicity group; ODB_NONE if it has none */
    odb_part headers; /* in the document, the bytes of their JSON value; ODB_NONE if there are none, or null */
    odb_part body;    /* in the document, the bytes as they were written; ODB_NONE if it has none, or null */
    size_t status;    /* from 100 to 599 */
} odb_response;

/* Gives each response in the document of a service, in its order (OData JSON Format 4.01, section 19.5). They need not fit any
 * batch; `odb_match_with` says whether they do. The text has ids and groups, and `responses` is a buffer of `responses_size`
 * structs; it may be NULL, which is one of size 0. `*count` is set to the number of responses; it must not be NULL. Returns
 * ODB_DONE; or, with both buffers as they were, ODB_SMALL_BUFFER if one of them has too little room: `*text_length` and `*count`
 * say how much is needed. If the document is refused or an allocation fails, `*count` is 0, `responses` is as it was, and it
 * returns ODB_REFUSED, with the line of the fault as text, ODB_SMALL_BUFFER or ODB_OUT_OF_MEMORY. Takes O(n log n) time for n
 * bytes of the document, and copies neither headers nor bodies. */
uint32_t odb_responses(const uint8_t *document, size_t document_size,
                       uint8_t *text, size_t text_size, size_t *text_length,
                       odb_response *responses, size_t responses_size, size_t *count);

/* A header: where its name and its value lie in a text. */
typedef struct odb_header {
    odb_part name;  /* in lower case */
    odb_part value; /* with its escapes in JSON resolved */
} odb_header;

/* Gives the headers of an odb_request or an odb_response, which are a JSON object, as pairs in byte order of their names. Empty, NULL
 * or the JSON null is none. The text has names and values, and `pairs` is a buffer of `pairs_size` structs; it may be NULL, which is one
 * of size 0. `*count` is set to the number of headers; it must not be NULL. Returns ODB_DONE; or, with both buffers as they were,
 * ODB_SMALL_BUFFER if one of them has too little room: `*text_length` and `*count` say how much is needed; or, with both 0,
 * ODB_REFUSED if these are not what `odb_run_report` takes as headers, or ODB_OUT_OF_MEMORY. Takes O(n log n) time for n bytes. */
uint32_t odb_headers(const uint8_t *headers, size_t headers_size,
                     uint8_t *text, size_t text_size, size_t *text_length,
                     odb_header *pairs, size_t pairs_size, size_t *count);

/* Says where a request of a batch is sent, if at all. `base` is the absolute URL of the folder of `$batch`, as
 * http://host/odata/, to which `url` is joined (RFC 3986, section 5.2). `roots` has the roots of the service, one a line: absolute
 * URLs with a host that end with / and have neither user information nor query; another text allows nothing.
 * Of a request that refers to another one, `url` is what follows the reference, as the `rest` of an odb_request; `sent` is the
 * absolute URL to which that one was sent, `location` the Location of its answer, or empty, and `post` is 1 if it was a POST, else
 * 0. Of any other request `sent` is empty.
 * The text is the URL to which it is sent: it begins with one of the roots, in ASCII and without a fragment, and stays below it,
 * whether a server decodes its path never, once or twice. Returns ODB_DONE, ODB_SMALL_BUFFER or ODB_OUT_OF_MEMORY; or, with no
 * text, ODB_UNREADABLE, ODB_OUTSIDE or ODB_NO_LOCATION. Takes O(n) time for texts of n bytes. */
uint32_t odb_resolve(const uint8_t *base, size_t base_size, const uint8_t *roots, size_t roots_size,
                     const uint8_t *url, size_t url_size, const uint8_t *sent, size_t sent_size,
                     const uint8_t *location, size_t location_size, uint32_t post,
                     uint8_t *text, size_t text_size, size_t *text_length);

/* A live run: a caller starts requests and reports how they ended, and learns what may start then. Requests are
 * named by their positions in the batch, from 0.
 *
 *   Handle     A pointer, whose struct only the library knows. `odb_run_open` writes it to its place, and `odb_run_close`
 *              ends it. Until then each call takes the address of that place, or of a copy of it. A caller must pass a
 *              handle that was opened and is not closed; nothing checks that.
 *   Threads    One thread at a time may be in the calls on one handle, on any thread; runs of their own need
 *              no lock.
 *   Memory     A handle owns a copy of the ids and groups of the batch, and of all that was reported. No call keeps
 *              what it was passed.
 *   NULL       `run`, `count` and `position` must not be NULL. `positions` and `id` may be, which are a buffer
 *              and an id of size 0.
 *   Overlap    The place of the handle, `*count` and `*position` must not overlap the other arguments. */
typedef struct odb_open_run *odb_live_run;

/* Opens the run of a batch after recorded events, which may be none: the document {"events":[]}.
 * Returns ODB_DONE, and `*run` is a handle, with no text; what was there before is forgotten. Otherwise `*run` is as
 * it was: returns ODB_REFUSED if a document is refused, or if an event names no request or may not come, and the text
 * is the line of the fault; ODB_SMALL_BUFFER if the line does not fit; ODB_WRONG_OPTION unless `mode` and `width` are
 * as in `odb_run_as`; or ODB_OUT_OF_MEMORY. Takes O(n log n) time for n bytes of documents.
 * A document of events has at most 16,777,216 bytes, and only whole numbers. To continue a run whose reports do not fit
 * into one, open it without events and make the recorded calls again, one by one in their order: the run is the same. */
uint32_t odb_run_open(const uint8_t *batch, size_t batch_size,
                      const uint8_t *events, size_t events_size,
                      uint32_t mode, uint32_t width, odb_live_run *run,
                      uint8_t *text, size_t text_size, size_t *text_length, uint64_t seed);

/* Opens a run as `odb_run_open` does, and gives what is to be sent of its requests as `odb_requests` does; the batch is read once.
 * Returns ODB_DONE, with the handle and both buffers filled; or ODB_SMALL_BUFFER if one of the buffers has too little room, and both
 * are as they were: `*text_length` and `*count` say how much is needed. Else `*count` is 0, `requests` is as it was, and it returns
 * what `odb_run_open` does. Unless it returns ODB_DONE, no run is opened, and `*run` is as it was. */
uint32_t odb_run_open_requests(const uint8_t *batch, size_t batch_size,
                               const uint8_t *events, size_t events_size,
                               uint32_t mode, uint32_t width, odb_live_run *run,
                               uint8_t *text, size_t text_size, size_t *text_length,
                               odb_request *requests, size_t requests_size, size_t *count, uint64_t seed);

/* Copies the positions of the requests that may start now to a buffer of `positions_size` numbers, each once,
 * in no particular order. `*count` is set to the number of them. Returns ODB_DONE, or ODB_SMALL_BUFFER if they do
 * not fit, and the buffer is as it was. A handle as above. Takes O(positions) time. */
uint32_t odb_run_ready(odb_live_run *run, uint32_t *positions, size_t positions_size, size_t *count);

/* The same of the requests that run now. */
uint32_t odb_run_running(odb_live_run *run, uint32_t *positions, size_t positions_size, size_t *count);

/* Copies the positions of the undone requests of a finished run to a buffer of `positions_size` numbers, from the
 * last to the first: those that reported a status from 200 to 299 but are answered 424, since another request of
 * their group did not succeed. `*count` is set to the number of them. Returns ODB_DONE, or ODB_SMALL_BUFFER if they
 * do not fit; or with 0 in `*count` ODB_REFUSED if the run is not finished, or ODB_OUT_OF_MEMORY. Unless it returns
 * ODB_DONE, the buffer is as it was. A handle as above. Takes O(requests) time. */
uint32_t odb_run_undone(odb_live_run *run, uint32_t *positions, size_t positions_size, size_t *count);

/* Sets `*position` to that of the request with an id, and returns ODB_DONE; or ODB_WRONG_OPTION if there is none, and
 * `*position` is as it was. A handle as above. Takes O(log n) comparisons of ids, and allocates nothing. */
uint32_t odb_run_position(odb_live_run *run, const uint8_t *id, size_t id_size, uint32_t *position);

/* Writes the ids of the requests, one a line, in the order of their positions. Returns ODB_DONE, ODB_OUT_OF_MEMORY or
 * ODB_SMALL_BUFFER. A handle as above. Takes O(n) time for ids of n bytes. */
uint32_t odb_run_ids(odb_live_run *run, uint8_t *text, size_t text_size, size_t *text_length);

/* Starts a request. Returns ODB_DONE; or, with the run as it was, ODB_WRONG_OPTION if there is no such position,
 * or the cause, from ODB_ALREADY_STARTED to ODB_WIDTH_REACHED. A handle as above. Takes O(dependencies of the
 * request) time, and allocates nothing. */
uint32_t odb_run_start(odb_live_run *run, uint32_t position);

/* Copies the positions of the first unit that may begin to a buffer of `positions_size` numbers: of the members of a
 * group, or of one request without a group, in order. A unit may begin if none of its members has started, it has not
 * failed, what its members need of other units has succeeded, the run is not stopped, and fewer requests are running
 * than the width allows. `*count` is set to the number of them, which is 0 if no unit may begin now. Returns ODB_DONE,
 * or ODB_SMALL_BUFFER if they do not fit, and the buffer is as it was. A handle as above, whose run stays as it is:
 * start each of them by `odb_run_start`, once it is ready, or all by `odb_run_start_unit`. All calls of a run take
 * O(requests and their dependencies) time together, beside O(positions) for each. */
uint32_t odb_run_next_unit(odb_live_run *run, uint32_t *positions, size_t positions_size, size_t *count);

/* Starts all members of the unit of a request together, to send a group to a service as a batch of its own: the
 * group of the request, or the request alone if it has none. They are reported one by one by `odb_run_report`, in any
 * order, and until the last of them the unit counts as one in the width. Returns ODB_DONE; or, with the run as it was,
 * ODB_WRONG_OPTION if there is no such position, or the first cause against the unit: ODB_ALREADY_STARTED if a member
 * has started before, ODB_STOPPED, ODB_UNIT_FAILED, ODB_WAITING if something that a member needs of another unit has
 * not succeeded, or ODB_WIDTH_REACHED. A unit that `odb_run_next_unit` gives may start so. A handle as above. Takes
 * O(members and their dependencies) time, and allocates nothing. */
uint32_t odb_run_start_unit(odb_live_run *run, uint32_t position);

/* Gives the next part of a run as the text of a batch of its own, which the check accepts, and the positions of its requests:
 * requests that may be sent together, `limit` of them at most, none of which was in a part before. What they need is in the part
 * or has succeeded: dependencies on what has succeeded are left out, and `$id` in a URL is replaced by the Location that this request
 * has reported, and in an If-Match or If-None-Match by the ETag, if it comes earlier in the batch and is not in the part. It ends before
 * the first unit with a request that refers to one that has reported no Location of use, or no ETag.
 * Each body is the bytes of `batch`, which is the document of the run. `*count` is set to the number of positions; it is
 * 0 if nothing may be sent now. A run that is not finished gives a part with a request, or has one that is not reported yet, or such a
 * unit is the first that may begin.
 * Returns ODB_DONE, and from now on the requests are in a part: once it is answered, pass it with its responses to `odb_run_take`,
 * or start its units one after another by `odb_run_start_unit`, and report their requests. Otherwise the run and `positions` are as
 * they were: returns ODB_SMALL_BUFFER if one of the buffers has too little room, and `*text_length` and `*count` say how much is needed. Else `*count`
 * is 0, and it returns ODB_WRONG_OPTION if `batch` has not the ids and groups of the run's batch, or if one of its groups has more
 * than `limit` requests; what `odb_check_as` does if the batch is refused, or by F90 or F91 at the first such request of the first unit that
 * may begin: start this unit by `odb_run_start_unit`, report its requests, and ask again; or ODB_OUT_OF_MEMORY. A handle as above. Takes O(n log n) time for n bytes of the document. */
uint32_t odb_run_part(odb_live_run *run, const uint8_t *batch, size_t batch_size, uint32_t limit,
                      uint8_t *text, size_t text_size, size_t *text_length,
                      uint32_t *positions, size_t positions_size, size_t *count, uint64_t seed);

/* Takes what a service has answered a part that `odb_run_part` gave, at once: starts its requests, and reports each by the response with
 * its id: status, headers, and the bytes of the body. `part` is the text of the part, `responses` the response document, and `mode` what
 * an error does to the service: in ODB_STOP a request without a response is answered 424. What does not start, as its unit has failed or
 * the run was stopped before, is answered 424. In ODB_STOP the requests with errors start before one of them is reported; and if a 3xx
 * depends on a member of its group that is answered 424, and there is no error, the group starts as one, and this member is reported as
 * 204, which its group has undone. With a width of ODB_MAX_WIDTH all of these are kept. Returns ODB_DONE, with no text; or, with the run as it was, ODB_REFUSED if
 * `odb_match_with` refuses the part or the responses, or by F70 if a status is below 200 or headers are not those of a report: the text
 * is the line of the fault; ODB_SMALL_BUFFER if the line does not fit; ODB_WRONG_OPTION unless `mode` is one of these two, if a request
 * is running, or if one of the part is in none that was given or has started; or ODB_OUT_OF_MEMORY. A handle as above. Takes
 * O(n log n) time for n bytes of the documents. */
uint32_t odb_run_take(odb_live_run *run, const uint8_t *part, size_t part_size,
                      const uint8_t *responses, size_t responses_size, uint32_t mode,
                      uint8_t *text, size_t text_size, size_t *text_length, uint64_t seed);

/* Stops a run: from now on no request starts, by ODB_STOPPED. What is running is reported as before, and what has not
 * started is answered 424: then `odb_run_response` writes the response of a finished run. A handle as above. Takes
 * constant time. */
void odb_run_stop(odb_live_run *run);

/* The states of a request, as `odb_run_state` gives them. */
enum {
    ODB_STATE_WAITING = 0,  /* it may not start yet */
    ODB_STATE_READY = 1,    /* it may start now */
    ODB_STATE_RUNNING = 2,  /* it has started and not reported */
    ODB_STATE_REPORTED = 3, /* it has reported a status */
    ODB_STATE_SKIPPED = 4,  /* it never starts any more: its unit has failed, or the run is stopped */
    ODB_STATE_UNDONE = 5    /* the run is finished, and the request has to be undone: see `odb_run_undone` */
};

/* Sets `*state` to the state of a request, from ODB_STATE_WAITING to ODB_STATE_UNDONE, and `*status` to the status that
 * it has reported, or 0; once the run is finished, to the status that it is answered. Returns ODB_DONE; or
 * ODB_WRONG_OPTION if there is no such position, and both are as they were. `state` and `status` must not be NULL, nor
 * overlap. A handle as above. Takes constant time. */
uint32_t odb_run_state(odb_live_run *run, uint32_t position, uint32_t *state, uint32_t *status);

/* Takes the outcome of a running request: an HTTP status, headers and a body. The headers are a JSON object of strings
 * whose names differ in lower case. The body is JSON that nests at most 124 deep, so that `odb_match_with` can read the
 * response, which repeats the bytes of the body, whatever numbers it has. Headers and body may each be empty, NULL or
 * the JSON null, for none. Each has at most 16,777,216 bytes. All reports of a run together may have more, and other
 * numbers, than a document of events can hold: `odb_run_open` says how such a run continues after a failure.
 * Returns ODB_DONE; or, with the run as it was, ODB_WRONG_OPTION if there is no such position,
 * ODB_REFUSED if the headers or the body are not of this form, ODB_OUT_OF_MEMORY, or the cause, ODB_NOT_RUNNING or
 * ODB_BAD_STATUS. A handle as above. All reports of a run take O(requests + dependencies) time together, beside
 * O(n) for n bytes of bodies and O(m log m) for m bytes of headers. */
uint32_t odb_run_report(odb_live_run *run, uint32_t position, uint32_t status,
                        const uint8_t *headers, size_t headers_size,
                        const uint8_t *body, size_t body_size);

/* Writes why `odb_run_report` returns ODB_REFUSED for these headers and this body: the line of the fault that a document of events has,
 * if it has this report alone, as `fault F64 BadEvents /events/0` for headers, or `fault F02 NotJson events` for a body. Returns
 * ODB_REFUSED; ODB_SMALL_BUFFER if the line does not fit; ODB_OUT_OF_MEMORY; or ODB_DONE, with no text, if a report may have them. Takes
 * the time of the report. */
uint32_t odb_report_fault(const uint8_t *headers, size_t headers_size,
                          const uint8_t *body, size_t body_size,
                          uint8_t *text, size_t text_size, size_t *text_length);

/* Returns 1 if no event may come any more, else 0. A handle as above. Takes constant time. */
uint32_t odb_run_finished(odb_live_run *run);

/* The steps of a run, as `odb_run_next` gives them. */
enum {
    ODB_STEP_NONE = 0,  /* the run is finished */
    ODB_STEP_START = 1, /* a request starts */
    ODB_STEP_REPORT = 2 /* a request that runs is reported */
};

/* Sets `*step` to the step that a run takes next in an order, from ODB_STEP_NONE to ODB_STEP_REPORT, and `*position` to that
 * of its request: it is the step that `odb_replay_as` takes in the same order. Without a step `*position` is as it was. Returns
 * ODB_DONE; or ODB_WRONG_OPTION unless `order` is as in `odb_replay_as`, and both are as they were. `step` must not be NULL, and
 * `step` and `position` must not overlap. A handle as above, whose run stays as it is: start the request by `odb_run_start`,
 * or report it by `odb_run_report`. Takes O(requests that may start or run) time, and allocates nothing. */
uint32_t odb_run_next(odb_live_run *run, uint32_t order, uint32_t *step, uint32_t *position);

/* Writes what `odb_run_as` writes of the batch and the events so far, but with each reported body as it is: the response
 * and a newline, or the line of F66 if the run is not finished. Returns what `odb_check_as` does. A handle as above, whose
 * run stays as it is. Takes O(n) time for a text of n bytes: nothing is read again. */
uint32_t odb_run_response(odb_live_run *run, uint8_t *text, size_t text_size, size_t *text_length);

/* Frees a run. Neither the handle nor a copy of it may be passed to a call any more. That all its memory is freed is tested, not
 * proved. */
void odb_run_close(odb_live_run run);

/* Draws a seed from the random bytes of the system, or returns 0, which is no seed, if it has none. */
static inline uint64_t odb_seed(void)
{
#if defined(__linux__)
    uint64_t seed = 0;
    return getentropy(&seed, sizeof seed) == 0 ? seed : 0;
#elif defined(_WIN32)
    uint64_t seed = 0;
    return SystemFunction036(&seed, sizeof seed) ? seed : 0;
#else
    return 0;
#endif
}

/* The same calls with any pointer for an empty document or buffer. A call through this header is one of them. */

#define ODB_INLINE_IN(at) const uint8_t *at, size_t at##_size
#define ODB_INLINE_TEXT uint8_t *text, size_t text_size, size_t *text_length
#define ODB_INLINE_SLICE(at) at && at##_size ? at : &none, at ? at##_size : 0

static inline uint32_t odb_inline_check_as(ODB_INLINE_IN(batch), uint32_t form, ODB_INLINE_TEXT, uint64_t seed)
{
    uint8_t none = 0;
    return odb_check_as(ODB_INLINE_SLICE(batch), form, ODB_INLINE_SLICE(text), text_length, seed);
}

static inline uint32_t odb_inline_check_all_as(ODB_INLINE_IN(batch), uint32_t form, ODB_INLINE_TEXT, uint64_t seed)
{
    uint8_t none = 0;
    return odb_check_all_as(ODB_INLINE_SLICE(batch), form, ODB_INLINE_SLICE(text), text_length, seed);
}

static inline uint32_t odb_inline_plan_as(ODB_INLINE_IN(batch), uint32_t form, ODB_INLINE_TEXT, uint64_t seed)
{
    uint8_t none = 0;
    return odb_plan_as(ODB_INLINE_SLICE(batch), form, ODB_INLINE_SLICE(text), text_length, seed);
}

static inline uint32_t odb_inline_canon_as(ODB_INLINE_IN(batch), uint32_t form, ODB_INLINE_TEXT, uint64_t seed)
{
    uint8_t none = 0;
    return odb_canon_as(ODB_INLINE_SLICE(batch), form, ODB_INLINE_SLICE(text), text_length, seed);
}

static inline uint32_t odb_inline_match_with(ODB_INLINE_IN(batch), ODB_INLINE_IN(responses), uint32_t mode,
                                             uint32_t strict, uint32_t form, ODB_INLINE_TEXT, uint64_t seed)
{
    uint8_t none = 0;
    return odb_match_with(ODB_INLINE_SLICE(batch), ODB_INLINE_SLICE(responses), mode, strict, form,
                          ODB_INLINE_SLICE(text), text_length, seed);
}

static inline uint32_t odb_inline_rest(ODB_INLINE_IN(batch), ODB_INLINE_IN(responses), uint32_t mode, uint32_t form,
                                       ODB_INLINE_TEXT, uint64_t seed)
{
    uint8_t none = 0;
    return odb_rest(ODB_INLINE_SLICE(batch), ODB_INLINE_SLICE(responses), mode, form, ODB_INLINE_SLICE(text), text_length,
                    seed);
}

static inline uint32_t odb_inline_run_as(ODB_INLINE_IN(batch), ODB_INLINE_IN(events), uint32_t mode, uint32_t width,
                                         uint32_t form, ODB_INLINE_TEXT, uint64_t seed)
{
    uint8_t none = 0;
    return odb_run_as(ODB_INLINE_SLICE(batch), ODB_INLINE_SLICE(events), mode, width, form, ODB_INLINE_SLICE(text),
                      text_length, seed);
}

static inline uint32_t odb_inline_replay_as(ODB_INLINE_IN(batch), ODB_INLINE_IN(outcomes), uint32_t mode,
                                            uint32_t width, uint32_t order, uint32_t trace, uint32_t form,
                                            ODB_INLINE_TEXT, uint64_t seed)
{
    uint8_t none = 0;
    return odb_replay_as(ODB_INLINE_SLICE(batch), ODB_INLINE_SLICE(outcomes), mode, width, order, trace, form,
                         ODB_INLINE_SLICE(text), text_length, seed);
}

static inline uint32_t odb_inline_where(ODB_INLINE_IN(document), ODB_INLINE_IN(place), odb_position *position)
{
    uint8_t none = 0;
    return odb_where(ODB_INLINE_SLICE(document), ODB_INLINE_SLICE(place), position);
}

static inline uint32_t odb_inline_faults(ODB_INLINE_IN(batch), ODB_INLINE_TEXT, odb_fault *faults, size_t faults_size,
                                         size_t *count, uint64_t seed)
{
    uint8_t none = 0;
    odb_fault no_fault = {{0, 0}, {0, 0}, {0, 0}, {0, 0, 0, 0}};
    return odb_faults(ODB_INLINE_SLICE(batch), ODB_INLINE_SLICE(text), text_length,
                      faults && faults_size ? faults : &no_fault, faults ? faults_size : 0, count, seed);
}

static inline uint32_t odb_inline_requests(ODB_INLINE_IN(batch), ODB_INLINE_TEXT, odb_request *requests,
                                           size_t requests_size, size_t *count, uint64_t seed)
{
    uint8_t none = 0;
    odb_request no_request = {{0, 0}, {0, 0}, {0, 0}, {0, 0}, {0, 0}, {0, 0}, {0, 0}, {0, 0}, 0};
    return odb_requests(ODB_INLINE_SLICE(batch), ODB_INLINE_SLICE(text), text_length,
                        requests && requests_size ? requests : &no_request, requests ? requests_size : 0, count, seed);
}

static inline uint32_t odb_inline_responses(ODB_INLINE_IN(document), ODB_INLINE_TEXT, odb_response *responses,
                                            size_t responses_size, size_t *count)
{
    uint8_t none = 0;
    odb_response no_response = {{0, 0}, {0, 0}, {0, 0}, {0, 0}, 0};
    return odb_responses(ODB_INLINE_SLICE(document), ODB_INLINE_SLICE(text), text_length,
                         responses && responses_size ? responses : &no_response, responses ? responses_size : 0, count);
}

static inline uint32_t odb_inline_headers(ODB_INLINE_IN(headers), ODB_INLINE_TEXT, odb_header *pairs, size_t pairs_size,
                                          size_t *count)
{
    uint8_t none = 0;
    odb_header no_header = {{0, 0}, {0, 0}};
    return odb_headers(ODB_INLINE_SLICE(headers), ODB_INLINE_SLICE(text), text_length,
                       pairs && pairs_size ? pairs : &no_header, pairs ? pairs_size : 0, count);
}

static inline uint32_t odb_inline_explain(ODB_INLINE_IN(code), ODB_INLINE_TEXT)
{
    uint8_t none = 0;
    return odb_explain(ODB_INLINE_SLICE(code), ODB_INLINE_SLICE(text), text_length);
}

static inline uint32_t odb_inline_constants(ODB_INLINE_TEXT)
{
    uint8_t none = 0;
    return odb_constants(ODB_INLINE_SLICE(text), text_length);
}

static inline uint32_t odb_inline_resolve(ODB_INLINE_IN(base), ODB_INLINE_IN(roots), ODB_INLINE_IN(url),
                                          ODB_INLINE_IN(sent), ODB_INLINE_IN(location), uint32_t post, ODB_INLINE_TEXT)
{
    uint8_t none = 0;
    return odb_resolve(ODB_INLINE_SLICE(base), ODB_INLINE_SLICE(roots), ODB_INLINE_SLICE(url), ODB_INLINE_SLICE(sent),
                       ODB_INLINE_SLICE(location), post, ODB_INLINE_SLICE(text), text_length);
}

static inline uint32_t odb_inline_run_open(ODB_INLINE_IN(batch), ODB_INLINE_IN(events), uint32_t mode,
                                           uint32_t width, odb_live_run *run, ODB_INLINE_TEXT, uint64_t seed)
{
    uint8_t none = 0;
    return odb_run_open(ODB_INLINE_SLICE(batch), ODB_INLINE_SLICE(events), mode, width, run, ODB_INLINE_SLICE(text),
                        text_length, seed);
}

static inline uint32_t odb_inline_run_open_requests(ODB_INLINE_IN(batch), ODB_INLINE_IN(events), uint32_t mode,
                                                    uint32_t width, odb_live_run *run, ODB_INLINE_TEXT,
                                                    odb_request *requests, size_t requests_size, size_t *count,
                                                    uint64_t seed)
{
    uint8_t none = 0;
    odb_request no_request = {{0, 0}, {0, 0}, {0, 0}, {0, 0}, {0, 0}, {0, 0}, {0, 0}, {0, 0}, 0};
    return odb_run_open_requests(ODB_INLINE_SLICE(batch), ODB_INLINE_SLICE(events), mode, width, run,
                                 ODB_INLINE_SLICE(text), text_length, requests && requests_size ? requests : &no_request,
                                 requests ? requests_size : 0, count, seed);
}

static inline uint32_t odb_inline_run_ready(odb_live_run *run, uint32_t *positions, size_t positions_size,
                                            size_t *count)
{
    uint32_t none = 0;
    return odb_run_ready(run, ODB_INLINE_SLICE(positions), count);
}

static inline uint32_t odb_inline_run_running(odb_live_run *run, uint32_t *positions, size_t positions_size,
                                              size_t *count)
{
    uint32_t none = 0;
    return odb_run_running(run, ODB_INLINE_SLICE(positions), count);
}

static inline uint32_t odb_inline_run_undone(odb_live_run *run, uint32_t *positions, size_t positions_size,
                                             size_t *count)
{
    uint32_t none = 0;
    return odb_run_undone(run, ODB_INLINE_SLICE(positions), count);
}

static inline uint32_t odb_inline_run_next_unit(odb_live_run *run, uint32_t *positions, size_t positions_size,
                                                size_t *count)
{
    uint32_t none = 0;
    return odb_run_next_unit(run, ODB_INLINE_SLICE(positions), count);
}

static inline uint32_t odb_inline_run_part(odb_live_run *run, ODB_INLINE_IN(batch), uint32_t limit, ODB_INLINE_TEXT,
                                           uint32_t *positions, size_t positions_size, size_t *count, uint64_t seed)
{
    uint8_t none = 0;
    uint32_t no_position = 0;
    return odb_run_part(run, ODB_INLINE_SLICE(batch), limit, ODB_INLINE_SLICE(text), text_length,
                        positions && positions_size ? positions : &no_position, positions ? positions_size : 0, count, seed);
}

static inline uint32_t odb_inline_run_take(odb_live_run *run, ODB_INLINE_IN(part), ODB_INLINE_IN(responses), uint32_t mode,
                                           ODB_INLINE_TEXT, uint64_t seed)
{
    uint8_t none = 0;
    return odb_run_take(run, ODB_INLINE_SLICE(part), ODB_INLINE_SLICE(responses), mode, ODB_INLINE_SLICE(text), text_length, seed);
}

static inline uint32_t odb_inline_run_position(odb_live_run *run, ODB_INLINE_IN(id), uint32_t *position)
{
    uint8_t none = 0;
    return odb_run_position(run, ODB_INLINE_SLICE(id), position);
}

static inline uint32_t odb_inline_run_ids(odb_live_run *run, ODB_INLINE_TEXT)
{
    uint8_t none = 0;
    return odb_run_ids(run, ODB_INLINE_SLICE(text), text_length);
}

static inline uint32_t odb_inline_run_report(odb_live_run *run, uint32_t position, uint32_t status,
                                             ODB_INLINE_IN(headers), ODB_INLINE_IN(body))
{
    uint8_t none = 0;
    return odb_run_report(run, position, status, ODB_INLINE_SLICE(headers), ODB_INLINE_SLICE(body));
}

static inline uint32_t odb_inline_report_fault(ODB_INLINE_IN(headers), ODB_INLINE_IN(body), ODB_INLINE_TEXT)
{
    uint8_t none = 0;
    return odb_report_fault(ODB_INLINE_SLICE(headers), ODB_INLINE_SLICE(body), ODB_INLINE_SLICE(text), text_length);
}

static inline uint32_t odb_inline_run_response(odb_live_run *run, ODB_INLINE_TEXT)
{
    uint8_t none = 0;
    return odb_run_response(run, ODB_INLINE_SLICE(text), text_length);
}

#define odb_check_as odb_inline_check_as
#define odb_check_all_as odb_inline_check_all_as
#define odb_plan_as odb_inline_plan_as
#define odb_canon_as odb_inline_canon_as
#define odb_match_with odb_inline_match_with
#define odb_rest odb_inline_rest
#define odb_run_as odb_inline_run_as
#define odb_replay_as odb_inline_replay_as
#define odb_where odb_inline_where
#define odb_faults odb_inline_faults
#define odb_explain odb_inline_explain
#define odb_constants odb_inline_constants
#define odb_requests odb_inline_requests
#define odb_responses odb_inline_responses
#define odb_headers odb_inline_headers
#define odb_resolve odb_inline_resolve
#define odb_run_open odb_inline_run_open
#define odb_run_open_requests odb_inline_run_open_requests
#define odb_run_ready odb_inline_run_ready
#define odb_run_running odb_inline_run_running
#define odb_run_undone odb_inline_run_undone
#define odb_run_next_unit odb_inline_run_next_unit
#define odb_run_part odb_inline_run_part
#define odb_run_take odb_inline_run_take
#define odb_run_position odb_inline_run_position
#define odb_run_ids odb_inline_run_ids
#define odb_run_report odb_inline_run_report
#define odb_report_fault odb_inline_report_fault
#define odb_run_response odb_inline_run_response

/* The commands without a form, whose text is lines. They are no functions of the library any more, and stay for this version. */

static inline uint32_t odb_check(ODB_INLINE_IN(batch), ODB_INLINE_TEXT, uint64_t seed)
{
    return odb_check_as(batch, batch_size, ODB_LINES, text, text_size, text_length, seed);
}

static inline uint32_t odb_check_all(ODB_INLINE_IN(batch), ODB_INLINE_TEXT, uint64_t seed)
{
    return odb_check_all_as(batch, batch_size, ODB_LINES, text, text_size, text_length, seed);
}

static inline uint32_t odb_plan(ODB_INLINE_IN(batch), ODB_INLINE_TEXT, uint64_t seed)
{
    return odb_plan_as(batch, batch_size, ODB_LINES, text, text_size, text_length, seed);
}

static inline uint32_t odb_canon(ODB_INLINE_IN(batch), ODB_INLINE_TEXT, uint64_t seed)
{
    return odb_canon_as(batch, batch_size, ODB_LINES, text, text_size, text_length, seed);
}

static inline uint32_t odb_match_as(ODB_INLINE_IN(batch), ODB_INLINE_IN(responses), uint32_t form, ODB_INLINE_TEXT,
                                    uint64_t seed)
{
    return odb_match_with(batch, batch_size, responses, responses_size, ODB_CONTINUE, 0, form, text, text_size, text_length,
                          seed);
}

static inline uint32_t odb_match(ODB_INLINE_IN(batch), ODB_INLINE_IN(responses), ODB_INLINE_TEXT, uint64_t seed)
{
    return odb_match_as(batch, batch_size, responses, responses_size, ODB_LINES, text, text_size, text_length, seed);
}

static inline uint32_t odb_run(ODB_INLINE_IN(batch), ODB_INLINE_IN(events), uint32_t mode, uint32_t width, ODB_INLINE_TEXT,
                               uint64_t seed)
{
    return odb_run_as(batch, batch_size, events, events_size, mode, width, ODB_LINES, text, text_size, text_length, seed);
}

static inline uint32_t odb_replay(ODB_INLINE_IN(batch), ODB_INLINE_IN(outcomes), uint32_t mode, uint32_t width, uint32_t order,
                                  uint32_t trace, ODB_INLINE_TEXT, uint64_t seed)
{
    return odb_replay_as(batch, batch_size, outcomes, outcomes_size, mode, width, order, trace, ODB_LINES, text, text_size,
                         text_length, seed);
}

#ifdef __cplusplus
}
#endif

#endif
