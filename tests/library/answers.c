/* Prints what the library answers to the calls of a file, and what live runs return that one pseudo-random source drives: the
 * lines of wasm/answers.mjs, which have to be the same for each system. After each call as many blocks of memory have to be
 * allocated as before it.
 *
 *   answers CALLS RUNS
 *
 * A file of calls has for each call eight numbers of 32 bits (the command, the mode, the width, the order, the trace, whether a
 * match is strict, and the lengths of two documents), and the documents. */

#include "odb_batch.h"

#include "allocations.h"

#include <stdio.h>
#include <stdlib.h>
#include <string.h>

#define MOST_REQUESTS 10000
#define MOST_STEPS 60
#define LONGEST_BATCH 100000 /* of a live run */
#define WORDS(type) (sizeof(type) / sizeof(size_t))
#define COUNT(array) (sizeof(array) / sizeof *(array))

typedef struct bytes {
    const uint8_t *at;
    size_t size;
} bytes;

/* The numbers and the documents of a call. */
typedef struct call {
    uint32_t command, mode, width, order, trace, strict;
    bytes batch, second;
} call;

static uint64_t seed;

/* The text of the last call, in a buffer that grows. */
static uint8_t *text;
static size_t text_size, length;

/* Ends the program with a line. */
static void fail(const char *why)
{
    fprintf(stderr, "answers: %s\n", why);
    exit(70);
}

static void *allocated(void *old, size_t size)
{
    void *found = realloc(old, size);
    if (found == NULL)
        fail("out of memory");
    return found;
}

static void grow(size_t size)
{
    text = allocated(text, size);
    text_size = size;
}

/* Prints numbers, and the length and a hash of bytes. */
static void print_line(const uint32_t *numbers, size_t count, const void *at, size_t size)
{
    const uint8_t *it = at;
    uint32_t first = 2166136261u, second = 40503;
    for (size_t i = 0; i < size; i++) {
        first = (first ^ it[i]) * 16777619;
        second = (second ^ it[i]) * 2654435761u;
    }
    for (size_t i = 0; i < count; i++)
        printf("%lu ", (unsigned long)numbers[i]);
    printf("%lu %08lx%08lx\n", (unsigned long)size, (unsigned long)first, (unsigned long)second);
}

/* Reads the next call of a file. Returns whether there is one. */
static int next_call(bytes *file, call *it)
{
    uint32_t numbers[8];
    if (file->size < sizeof numbers)
        return 0;
    memcpy(numbers, file->at, sizeof numbers);
    const uint8_t *documents = file->at + sizeof numbers;
    *it = (call){numbers[0], numbers[1], numbers[2], numbers[3], numbers[4], numbers[5],
                 {documents, numbers[6]}, {documents + numbers[6], numbers[7]}};
    file->size -= sizeof numbers + numbers[6] + numbers[7];
    file->at = documents + numbers[6] + numbers[7];
    return 1;
}

static uint32_t answer_once(const call *it, uint32_t form)
{
    const bytes a = it->batch, b = it->second;
    switch (it->command) {
    case 0:
        return odb_check_as(a.at, a.size, form, text, text_size, &length, seed);
    case 1:
        return odb_plan_as(a.at, a.size, form, text, text_size, &length, seed);
    case 2:
        return odb_canon_as(a.at, a.size, form, text, text_size, &length, seed);
    case 3:
        return odb_match_with(a.at, a.size, b.at, b.size, it->mode, it->strict, form, text, text_size, &length, seed);
    case 4:
        return odb_run_as(a.at, a.size, b.at, b.size, it->mode, it->width, form, text, text_size, &length, seed);
    case 5:
        return odb_replay_as(a.at, a.size, b.at, b.size, it->mode, it->width, it->order, it->trace, form,
                             text, text_size, &length, seed);
    default:
        return odb_rest(a.at, a.size, b.at, b.size, it->mode, form, text, text_size, &length, seed);
    }
}

/* Ends the program if blocks were allocated and not freed. */
static void expect_blocks(long before)
{
    if (live_blocks != before)
        fail("memory is not given back");
}

static uint32_t answer(const call *it, uint32_t form)
{
    for (;;) {
        long before = live_blocks;
        uint32_t status = answer_once(it, form);
        expect_blocks(before);
        if (status != ODB_SMALL_BUFFER)
            return status;
        grow(length);
    }
}

/* A call that lists what a batch has. */
typedef uint32_t lister(bytes batch, void *items, size_t room, size_t *count);

static uint32_t list_requests(bytes batch, void *items, size_t room, size_t *count)
{
    return odb_requests(batch.at, batch.size, text, text_size, &length, items, room, count, seed);
}

static uint32_t list_faults(bytes batch, void *items, size_t room, size_t *count)
{
    return odb_faults(batch.at, batch.size, text, text_size, &length, items, room, count, seed);
}

/* Prints what a call lists, in structs of so many sizes and positions. */
static void print_list(bytes batch, lister *list, size_t words)
{
    static size_t *items, room;
    static double *numbers;
    size_t count;
    for (;;) {
        long before = live_blocks;
        uint32_t status = list(batch, items, room / words, &count);
        expect_blocks(before);
        if (status != ODB_SMALL_BUFFER) {
            for (size_t i = 0; i < count * words; i++)
                numbers[i] = items[i] == ODB_NONE ? -1 : (double)items[i];
            uint32_t head[] = {status, (uint32_t)length};
            print_line(head, COUNT(head), numbers, count * words * sizeof *numbers);
            return;
        }
        if (length > text_size)
            grow(length);
        if (count * words > room) {
            room = count * words;
            items = allocated(items, room * sizeof *items);
            numbers = allocated(numbers, room * sizeof *numbers);
        }
    }
}

/* Prints what a call answers in each form. */
static void print_forms(const call *it)
{
    for (uint32_t form = ODB_LINES; form <= ODB_JSON; form++) {
        uint32_t status = answer(it, form);
        print_line(&status, 1, text, length);
    }
}

/* Prints where some places are in a batch. */
static void print_places(bytes batch)
{
    static const char *const places[] = {"batch", "/requests/0", "/requests/7"};
    for (size_t i = 0; i < COUNT(places); i++) {
        odb_position at = {0, 0, 0, 0};
        long before = live_blocks;
        uint32_t status = odb_where(batch.at, batch.size, (const uint8_t *)places[i], strlen(places[i]), &at);
        expect_blocks(before);
        uint32_t numbers[] = {status, (uint32_t)at.line, (uint32_t)at.column, (uint32_t)at.offset, (uint32_t)at.end};
        print_line(numbers, COUNT(numbers), NULL, 0);
    }
}

static void print_answers(bytes file)
{
    call it;
    while (next_call(&file, &it)) {
        print_forms(&it);
        print_list(it.batch, list_requests, WORDS(odb_request));
        print_list(it.batch, list_faults, WORDS(odb_fault));
        print_places(it.batch);
    }
}

/* The numbers that a live run has returned. */
static uint32_t *notes;
static size_t note_count, note_room;

static void note(uint32_t number)
{
    if (note_count == note_room)
        notes = allocated(notes, (note_room = 2 * note_room + 64) * sizeof *notes);
    notes[note_count++] = number;
}

/* A source of numbers below a limit. */
static uint32_t state_of_source;

static uint32_t next(uint32_t limit)
{
    state_of_source = state_of_source * 1664525u + 1013904223u;
    return (state_of_source >> 8) % limit;
}

static uint32_t positions[MOST_REQUESTS];
static size_t position_count;

static int compare(const void *a, const void *b)
{
    uint32_t first = *(const uint32_t *)a, second = *(const uint32_t *)b;
    return (first > second) - (first < second);
}

typedef uint32_t listing(odb_live_run *run, uint32_t *found, size_t size, size_t *count);

/* Notes what a call lists; in the order of positions where the call has none. */
static void list(odb_live_run *run, listing *listed, int is_sorted)
{
    note(listed(run, positions, MOST_REQUESTS, &position_count));
    if (is_sorted)
        qsort(positions, position_count, sizeof *positions, compare);
    for (size_t i = 0; i < position_count; i++)
        note(positions[i]);
}

/* One of the listed positions, or some number. */
static uint32_t chosen(void)
{
    return position_count == 0 || next(8) == 0 ? next(7) : positions[next((uint32_t)position_count)];
}

typedef uint32_t writing(odb_live_run *run, uint8_t *to, size_t size, size_t *written);

static void note_text(odb_live_run *run, writing *write)
{
    uint32_t status;
    while ((status = write(run, text, text_size, &length)) == ODB_SMALL_BUFFER)
        grow(length);
    note(status);
    for (size_t i = 0; i < length; i++)
        note(text[i]);
}

static void report(odb_live_run *run, uint32_t position)
{
    static const uint32_t statuses[] = {200, 201, 204, 299, 300, 404, 409, 500, 599, 199, 600, 0};
    static const char *const headers[] = {"", "{\"etag\":\"7\"}", "{\"A\":\"1\",\"a\":\"2\"}"};
    static const char *const bodies[] = {"", "null", "{\"a\":[1,2]}", "\"x\"", "{", "1.5", "[0.10, 1e999]"};
    uint32_t status = statuses[next(COUNT(statuses))];
    const char *header = headers[next(COUNT(headers))], *body = bodies[next(COUNT(bodies))];
    note(odb_run_report(run, position, status, (const uint8_t *)header, strlen(header), (const uint8_t *)body, strlen(body)));
}

/* Drives a run to its end, or for some steps, by choices of which some are refused. */
static void drive(odb_live_run *run)
{
    note_text(run, odb_run_ids);
    for (int step = 0; step < MOST_STEPS && !odb_run_finished(run); step++) {
        if (next(3) > 0) {
            list(run, odb_run_ready, 1);
            note(odb_run_start(run, chosen()));
        } else {
            list(run, odb_run_next_unit, 0);
            note(odb_run_start_unit(run, chosen()));
        }
        uint32_t taken = 0, first = 0, state = 0, status = 0;
        note(odb_run_next(run, next(3), &taken, &first));
        note(taken);
        note(first);
        list(run, odb_run_running, 1);
        uint32_t position = chosen();
        if (next(3) > 0)
            report(run, position);
        note(odb_run_state(run, position, &state, &status));
        note(state);
        note(status);
        if (next(50) == 0)
            odb_run_stop(run);
        if (next(16) == 0)
            note_text(run, odb_run_response);
    }
    note_text(run, odb_run_response);
    list(run, odb_run_undone, 0);
}

/* Opens a run of a batch, drives and closes it, and prints what it has returned. */
static void print_run(uint32_t number, bytes batch, uint32_t mode, uint32_t width)
{
    static const char events[] = "{\"events\":[]}";
    odb_live_run run;
    note_count = 0;
    uint32_t status = odb_run_open(batch.at, batch.size, (const uint8_t *)events, strlen(events), mode, width, &run,
                                   text, text_size, &length, seed);
    note(status);
    for (size_t i = 0; i < length; i++)
        note(text[i]);
    if (status != ODB_DONE)
        fail("a run of a batch that is accepted is not opened");
    drive(&run);
    odb_run_close(run);
    print_line(&number, 1, notes, note_count * sizeof *notes);
}

static void print_runs(bytes file, uint32_t count)
{
    bytes *accepted = NULL;
    size_t found = 0;
    call it;
    while (next_call(&file, &it)) {
        const call check = {0, 0, 1, 0, 0, 0, it.batch, {NULL, 0}};
        if (it.batch.size >= LONGEST_BATCH || answer(&check, ODB_LINES) != ODB_DONE)
            continue;
        accepted = allocated(accepted, (found + 1) * sizeof *accepted);
        accepted[found++] = it.batch;
    }
    notes = allocated(notes, (note_room = 1 << 20) * sizeof *notes);
    grow(text_size + (1 << 20));
    for (uint32_t i = 0; i < count; i++) {
        state_of_source = i;
        bytes batch = accepted[next((uint32_t)found)];
        uint32_t mode = next(2), width = 1 + next(5);
        long before = live_blocks;
        print_run(i, batch, mode, width);
        expect_blocks(before);
    }
    free(accepted);
}

static bytes read_file(const char *path)
{
    FILE *file = fopen(path, "rb");
    if (file == NULL || fseek(file, 0, SEEK_END))
        fail("the calls cannot be read");
    size_t size = (size_t)ftell(file);
    uint8_t *found = allocated(NULL, size + 1);
    rewind(file);
    if (fread(found, 1, size, file) != size)
        fail("the calls cannot be read");
    fclose(file);
    return (bytes){found, size};
}

int main(int count, char **words)
{
    if (count != 3)
        fail("usage: answers CALLS RUNS");
    seed = odb_seed();
    if (seed == 0)
        fail("no random bytes");
    bytes file = read_file(words[1]);
    grow(1 << 20);
    print_answers(file);
    print_runs(file, (uint32_t)atol(words[2]));
    return 0;
}
