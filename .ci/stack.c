/* Calls functions of the header on stacks that end, at a page that can't be touched, as many bytes below the caller's frame
 * as the header promises: each call on a table, with the longest lists and where objects go; of what takes no table what
 * reads and what writes each form, with the deepest nest and the most extensions. A recording is read from standard input.
 * Each runs in a process of its own, and is told by its name where it goes deeper or answers something else. With the
 * argument "measure" it writes what is promised and the least that suffices. Linked with -z now, since what finds a function
 * at its first call takes stack too. */
#define _DEFAULT_SOURCE
#include "rimonakh_more.h"

#include <stdio.h>
#include <string.h>
#include <sys/mman.h>
#include <sys/wait.h>
#include <ucontext.h>
#include <unistd.h>

enum {
    PAGE = 4096,
    KIB = 1024,
    LIST = 512, /* of each exporter */
    NEST = 8192,
    SNAPSHOT = RIMONAKH_LONGEST_SNAPSHOT,
    MOST = RIMONAKH_MOST_LISTED
};

static rimonakh_table full, few, held; /* held: by client 7 alone */
static uint8_t list[LIST], nest[NEST], inner[NEST], recording[1024 * KIB], snapshot[SNAPSHOT];
static uint8_t items[MOST * RIMONAKH_ITEM_SIZE], buffer[SNAPSHOT + MOST];
static uint64_t oids[MOST], entries[4 * RIMONAKH_MOST_EXTENSIONS];
static uint16_t protocols[MOST];
static const uint16_t words[] = {7, 'a', 0}; /* a binding */
static uint8_t single[KIB], header[4 * KIB], property[64], context[128];
static size_t nest_length, inner_length, recording_length, snapshot_length;
static size_t single_length, header_length, property_length, context_length;
static rimonakh_fragments begun, whole; /* of the single reference */
static bool other;        /* the call answered something else */
static const char *frame; /* of the function that calls */

#define FULL RIMONAKH_TABLE(&full)
#define FEW RIMONAKH_TABLE(&few)
#define HELD RIMONAKH_TABLE(&held)
#define DOES(name, answer, wanted) \
    static void name(void) { \
        frame = __builtin_frame_address(0); \
        other = (answer) != (wanted); \
    }

DOES(nothing, 0, 0)

/* ---- calls on a table */

DOES(replays, rimonakh_replay(FULL, recording, recording_length).answer, 0)
DOES(loads, rimonakh_load_snapshot(FULL, snapshot, snapshot_length), 0)
DOES(filters, rimonakh_resolve_filtered(FULL, 1, protocols, MOST, buffer, SNAPSHOT).length, LIST)
DOES(pings, rimonakh_complex_ping(FULL, 1, 2, oids, MOST, oids, MOST).answer, 0)
DOES(adds, rimonakh_add_list(FULL, 0, items, sizeof items, buffer, MOST), 0)
DOES(releases, rimonakh_release_list(HELD, 7, items, sizeof items, buffer, MOST), 0)
DOES(writes, rimonakh_write_snapshot(FULL, buffer, SNAPSHOT).length, SNAPSHOT)
DOES(resets, rimonakh_reset(FULL, 7), 0)
DOES(enters_exporter, rimonakh_enter_exporter(FEW, 99, 99, 99, list, LIST), 0)
DOES(removes, rimonakh_remove_exporter(FULL, 1), 0)
DOES(enters_object, rimonakh_enter_object(FEW, 999, 1, 9, 9, 1, 1, 1, true), 0)
DOES(enters_interface, rimonakh_enter_interface(FEW, 1, 9, 9, 1, 1, 1), 0)
DOES(adds_one, rimonakh_add(FULL, 7, 1001, 1, 1, 1), 0)
DOES(releases_one, rimonakh_release(FEW, 0, 1001, 1, 1, 0).objects, 1)
DOES(drops, rimonakh_drop_client(HELD, 7), 0)
DOES(pings_simply, rimonakh_simple_ping(FULL, 1), 0)
DOES(sets_clock, rimonakh_clock(FULL, 100000).sets, RIMONAKH_SETS)
DOES(resolves, rimonakh_resolve(FULL, 1, buffer, SNAPSHOT).length, LIST)
DOES(finds_stop, rimonakh_next_stop(FULL, nest, nest_length).answer, 0)
DOES(counts_live, rimonakh_census(FULL).interfaces, RIMONAKH_INTERFACES)
DOES(counts_members, rimonakh_members(FULL, 1).count, RIMONAKH_OBJECTS)

/* ---- without a table */

#define NEST_OF(content, length) \
    RIMONAKH_EXTENDED, 1, 1, 0, 1, 1, 1, 3, 3, 0, 0, 0, 0, 1, 1, list, LIST, content, length
#define EXTENSIONS entries, 4 * RIMONAKH_MOST_EXTENSIONS, nest, RIMONAKH_MOST_EXTENSIONS
#define ROOM buffer, SNAPSHOT
DOES(finds_whole, rimonakh_whole_records(recording, recording_length).end, recording_length)
DOES(judges_list, rimonakh_list_answer(list, LIST), 0)
DOES(finds_binding, rimonakh_list_string_binding(list, LIST, 0).to, LIST - 4)
DOES(begins_walk, rimonakh_list_strings(list, LIST).answer, 0)
DOES(writes_list, rimonakh_list_write(words, 3, NULL, 0, ROOM).answer, 0)
DOES(reads_nest, rimonakh_reference_read(nest, nest_length).answer, 0)
DOES(finds_element, rimonakh_reference_element(nest, nest_length, 0).answer, 0)
DOES(writes_nest, rimonakh_reference_write(NEST_OF(inner, inner_length), ROOM).length, nest_length)
DOES(pushes_first, rimonakh_fragments_push(rimonakh_fragments_none(), ROOM, single, single_length).seen, single_length)
DOES(pushes_rest, rimonakh_fragments_push(begun, ROOM, single + 1, single_length - 1).seen, single_length)
DOES(finishes, rimonakh_fragments_finish(whole, ROOM, snapshot, SNAPSHOT).answer, 0)
DOES(reads_header, rimonakh_this_read(header, header_length).answer, 0)
DOES(finds_extension, rimonakh_this_extension(header, header_length, RIMONAKH_MOST_EXTENSIONS - 1).answer, 0)
DOES(writes_header, rimonakh_this_write_extensions(7, 0, 1, 1, 1, 1, EXTENSIONS, ROOM).length, header_length)
DOES(reads_context, rimonakh_context_read(context, context_length).answer, 0)
DOES(reads_property, rimonakh_context_property(context, context_length, 0).answer, 0)
DOES(writes_context, rimonakh_context_write(1, 1, 0, 0, 1, 0, property, property_length, ROOM).length, context_length)
DOES(writes_property, rimonakh_property_write(1, 1, 1, 1, 1, list, 8, ROOM).length, property_length)

static const struct {
    const char *name;
    size_t promised;
    void (*call)(void);
} rows[] = {
    {"replay", 220 * KIB, replays},
    {"load_snapshot", 150 * KIB, loads},
    {"resolve_filtered", 16 * KIB, filters},
    {"complex_ping", 12 * KIB, pings},
    {"add_list", 12 * KIB, adds},
    {"release_list", 12 * KIB, releases},
    {"write_snapshot", 12 * KIB, writes},
    {"reset", 12 * KIB, resets},
    {"enter_exporter", 12 * KIB, enters_exporter},
    {"remove_exporter", 12 * KIB, removes},
    {"enter_object", 12 * KIB, enters_object},
    {"enter_interface", 12 * KIB, enters_interface},
    {"add", 12 * KIB, adds_one},
    {"release", 12 * KIB, releases_one},
    {"drop_client", 12 * KIB, drops},
    {"simple_ping", 12 * KIB, pings_simply},
    {"clock", 12 * KIB, sets_clock},
    {"resolve", 12 * KIB, resolves},
    {"next_stop", 12 * KIB, finds_stop},
    {"census", 12 * KIB, counts_live},
    {"members", 12 * KIB, counts_members},
    {"whole_records", 4 * KIB, finds_whole},
    {"list_answer", 4 * KIB, judges_list},
    {"list_string_binding", 4 * KIB, finds_binding},
    {"list_strings", 4 * KIB, begins_walk},
    {"list_write", 4 * KIB, writes_list},
    {"reference_read", 4 * KIB, reads_nest},
    {"reference_element", 4 * KIB, finds_element},
    {"reference_write", 4 * KIB, writes_nest},
    {"fragments_push", 4 * KIB, pushes_first},
    {"fragments_push", 4 * KIB, pushes_rest},
    {"fragments_finish", 4 * KIB, finishes},
    {"this_read", 4 * KIB, reads_header},
    {"this_extension", 4 * KIB, finds_extension},
    {"this_write_extensions", 4 * KIB, writes_header},
    {"context_read", 4 * KIB, reads_context},
    {"context_property", 4 * KIB, reads_property},
    {"context_write", 4 * KIB, writes_context},
    {"property_write", 4 * KIB, writes_property},
};

/* ---- a stack of so many bytes */

static size_t above = KIB; /* how far below its end the caller's frame stands: found by the first call */

static void on_stack(size_t bytes, void (*call)(void)) {
    static ucontext_t here, there;
    const size_t room = bytes + above;
    char *pages = mmap(NULL, PAGE + room, PROT_READ | PROT_WRITE, MAP_PRIVATE | MAP_ANONYMOUS, -1, 0);
    if (pages == MAP_FAILED || mprotect(pages, PAGE, PROT_NONE) != 0 || getcontext(&there) != 0)
        _exit(2);
    there.uc_stack.ss_sp = pages + PAGE;
    there.uc_stack.ss_size = room;
    there.uc_link = &here;
    makecontext(&there, call, 0);
    if (swapcontext(&here, &there) != 0)
        _exit(2);
    above = (size_t)(pages + PAGE + room - frame);
}

/* The call ends well on a stack of so many bytes. */
static bool suffices(size_t bytes, void (*call)(void)) {
    int status = 0;
    const pid_t child = fork();
    if (child == 0) {
        on_stack(bytes, call);
        _exit(other);
    }
    return child > 0 && waitpid(child, &status, 0) == child && WIFEXITED(status) && WEXITSTATUS(status) == 0;
}

/* The least number of bytes that suffices, in steps of 16, where so many do. */
static size_t least(size_t most, void (*call)(void)) {
    size_t too_few = 0;
    while (most - too_few > 16) {
        const size_t bytes = (too_few + most) / 32 * 16;
        if (suffices(bytes, call))
            most = bytes;
        else
            too_few = bytes;
    }
    return most;
}

/* ---- what they are given */

/* One string binding, as long as the list. */
static void make_list(void) {
    const int words = (LIST - 4) / 2;
    uint8_t *at = rimonakh_put(rimonakh_put(list, (uint64_t)words, 2), (uint64_t)words - 1, 2);
    at = rimonakh_put(at, 7, 2);
    for (int i = 0; i < words - 4; i++)
        at = rimonakh_put(at, 'a', 2);
    rimonakh_put(at, 0, 6);
}

static bool fill_few(void) {
    return rimonakh_reset(FEW, 1000) == 0 && rimonakh_enter_exporter(FEW, 1, 2, 2, list, LIST) == 0 &&
           rimonakh_enter_object(FEW, 1, 1, 1001, 1, 1, 1, 1, false) == 0;
}

/* An object for each place, without a reference but those of client 7. */
static bool fill_held(void) {
    uint32_t refused = rimonakh_reset(HELD, 1000) | rimonakh_enter_exporter(HELD, 1, 2, 2, list, LIST);
    for (uint64_t o = 1; o <= RIMONAKH_OBJECTS; o++) {
        refused |= rimonakh_enter_object(HELD, o, 1, 1000 + o, 1, 1, 1, 1, false);
        refused |= rimonakh_add(HELD, 7, 1000 + o, 1, 0, 1);
        refused |= rimonakh_release(HELD, 0, 1000 + o, 1, 1, 0).answer;
    }
    return refused == 0;
}

/* Exporter, object and interfaces of each place, private references of client 7, and each object in each set. */
static bool fill_full(void) {
    uint32_t refused = rimonakh_reset(FULL, 1000);
    for (uint64_t x = 1; x <= RIMONAKH_EXPORTERS; x++)
        refused |= rimonakh_enter_exporter(FULL, x, x, 2, list, LIST);
    for (uint64_t o = 1; o <= RIMONAKH_OBJECTS; o++) {
        refused |= rimonakh_enter_object(FULL, o, 1 + o % RIMONAKH_EXPORTERS, 1000 + o, 1, 1, 1, 1, false);
        refused |= rimonakh_enter_interface(FULL, o, 2000 + o, 1, 1, 1, 1);
        refused |= rimonakh_add(FULL, 7, 2000 + o, 1, 0, 1);
    }
    for (int set = 0; set < RIMONAKH_SETS; set++)
        refused |= rimonakh_complex_ping(FULL, 0, 1, oids, RIMONAKH_OBJECTS, NULL, 0).answer;
    const rimonakh_written written = rimonakh_write_snapshot(FULL, snapshot, SNAPSHOT);
    snapshot_length = written.length;
    return refused == 0 && written.answer == 0 && written.length == SNAPSHOT;
}

/* A custom reference in as many extended ones as may be. */
static bool make_nest(void) {
    rimonakh_written written =
        rimonakh_reference_write(RIMONAKH_CUSTOM, 1, 1, 0, 0, 0, 0, 0, 0, 1, 1, 0, 0, 0, 0, NULL, 0, NULL, 0, nest, NEST);
    for (int level = 1; level < RIMONAKH_MOST_LEVELS && written.answer == 0; level++) {
        inner_length = written.length;
        memcpy(inner, nest, inner_length);
        written = rimonakh_reference_write(NEST_OF(inner, inner_length), nest, NEST);
    }
    nest_length = written.length;
    return written.answer == 0;
}

/* A standard reference and its fragments, a header with the most extensions, a context with a property. */
static bool make_others(void) {
    single_length = rimonakh_reference_write(RIMONAKH_STANDARD, 1, 1, 0, 1, 1, 1, 3, 3, 0, 0, 0, 0, 0, 0, list, LIST, NULL, 0,
                                             single, sizeof single).length;
    begun = rimonakh_fragments_push(rimonakh_fragments_none(), buffer, SNAPSHOT, single, 1);
    whole = rimonakh_fragments_push(begun, buffer, SNAPSHOT, single + 1, single_length - 1);
    header_length = rimonakh_this_write_extensions(7, 0, 1, 1, 1, 1, EXTENSIONS, header, sizeof header).length;
    property_length = rimonakh_property_write(1, 1, 1, 1, 1, list, 8, property, sizeof property).length;
    context_length = rimonakh_context_write(1, 1, 0, 0, 1, 0, property, property_length, context, sizeof context).length;
    return single_length != 0 && header_length != 0 && property_length != 0 && context_length != 0;
}

static void make_lists(void) {
    for (size_t i = 0; i < MOST; i++) {
        const rimonakh_guid known = {1001 + i % RIMONAKH_OBJECTS, 1};
        rimonakh_put_item(items + i * RIMONAKH_ITEM_SIZE, known, 1, 1);
        oids[i] = 1 + i % RIMONAKH_OBJECTS;
        protocols[i] = (uint16_t)(i + 1);
    }
    for (size_t i = 0; i < RIMONAKH_MOST_EXTENSIONS; i++) { /* id, pointer, one byte of data */
        entries[4 * i] = i + 1;
        entries[4 * i + 2] = 1;
        entries[4 * i + 3] = 1;
    }
}

int main(int argc, char **argv) {
    const bool measure = argc == 2 && strcmp(argv[1], "measure") == 0;
    bool failed = false;
    recording_length = fread(recording, 1, sizeof recording, stdin);
    make_list();
    make_lists();
    if (!fill_few() || !fill_held() || !fill_full() || !make_nest() || !make_others())
        return 2;
    on_stack(PAGE, nothing);
    for (size_t i = 0; i < sizeof rows / sizeof rows[0]; i++) {
        const bool kept = suffices(rows[i].promised, rows[i].call);
        if (!kept)
            printf("rimonakh_%s does not end well on %zu bytes of stack\n", rows[i].name, rows[i].promised);
        else if (measure)
            printf("%-22s%7zu%7zu\n", rows[i].name, rows[i].promised, least(rows[i].promised, rows[i].call));
        failed |= !kept;
    }
    /* the end of a stack is held: a load does not fit where a reset does */
    if (suffices(12 * KIB, loads) || !suffices(12 * KIB, resets)) {
        puts("the end of a stack is not held");
        failed = true;
    }
    return failed;
}
