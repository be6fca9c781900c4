/* Calls every function of the header, as C and as C++, also with NULL for each buffer, and holds the structs to the layout that the
 * archive has. With the argument "handler", "custom", "extended" or "nested" it writes such a reference to standard output instead. */
#include "rimonakh.h"

#include <stdio.h>
#include <string.h>

/* an array of a negative length where a struct has another size, or a field stands elsewhere */
#define SIZE(type, size) typedef char type##_has_size[sizeof(type) == (size) ? 1 : -1]
#define AT(type, field, place) typedef char type##_has_at_##field[offsetof(type, field) == (place) ? 1 : -1]

SIZE(rimonakh_guid, 16);
AT(rimonakh_guid, high, 8);
SIZE(rimonakh_orpc_this, 24);
AT(rimonakh_orpc_this, flags, 4);
AT(rimonakh_orpc_this, causality, 8);
SIZE(rimonakh_extensions, 12);
AT(rimonakh_extensions, array, 4);
AT(rimonakh_extensions, count, 8);
SIZE(rimonakh_extension, 40);
AT(rimonakh_extension, pointer, 4);
AT(rimonakh_extension, id, 8);
AT(rimonakh_extension, from, 24);
AT(rimonakh_extension, to, 32);
SIZE(rimonakh_read_this, 56);
AT(rimonakh_read_this, header, 8);
AT(rimonakh_read_this, extensions, 32);
AT(rimonakh_read_this, length, 48);
SIZE(rimonakh_orpc_that, 4);
SIZE(rimonakh_read_that, 32);
AT(rimonakh_read_that, header, 4);
AT(rimonakh_read_that, extensions, 8);
AT(rimonakh_read_that, length, 24);
SIZE(rimonakh_place, 24);
AT(rimonakh_place, from, 8);
AT(rimonakh_place, to, 16);
SIZE(rimonakh_cursor, 24);
AT(rimonakh_cursor, at, 8);
AT(rimonakh_cursor, left, 16);
SIZE(rimonakh_step, 32);
AT(rimonakh_step, from, 8);
AT(rimonakh_step, to, 16);
AT(rimonakh_step, left, 24);
SIZE(rimonakh_extension_cursor, 32);
AT(rimonakh_extension_cursor, pointer, 8);
AT(rimonakh_extension_cursor, at, 16);
AT(rimonakh_extension_cursor, left, 24);
SIZE(rimonakh_extension_step, 64);
AT(rimonakh_extension_step, pointer, 40);
AT(rimonakh_extension_step, at, 48);
AT(rimonakh_extension_step, left, 56);
SIZE(rimonakh_block, 40);
AT(rimonakh_block, public_refs, 4);
AT(rimonakh_block, oxid, 8);
AT(rimonakh_block, oid, 16);
AT(rimonakh_block, ipid, 24);
SIZE(rimonakh_reference, 104);
AT(rimonakh_reference, iid, 8);
AT(rimonakh_reference, block, 24);
AT(rimonakh_reference, clsid, 64);
AT(rimonakh_reference, extension, 80);
AT(rimonakh_reference, size, 84);
AT(rimonakh_reference, element, 88);
SIZE(rimonakh_read_reference, 112);
AT(rimonakh_read_reference, reference, 8);
SIZE(rimonakh_context, 32);
AT(rimonakh_context, reserved, 16);
AT(rimonakh_context, marshal, 20);
AT(rimonakh_context, count, 24);
AT(rimonakh_context, frozen, 28);
SIZE(rimonakh_read_context, 40);
AT(rimonakh_read_context, context, 8);
SIZE(rimonakh_property, 40);
AT(rimonakh_property, policy, 16);
AT(rimonakh_property, flags, 32);
SIZE(rimonakh_read_property, 48);
AT(rimonakh_read_property, property, 8);
SIZE(rimonakh_property_step, 72);
AT(rimonakh_property_step, property, 8);
AT(rimonakh_property_step, from, 48);
AT(rimonakh_property_step, to, 56);
AT(rimonakh_property_step, left, 64);
SIZE(rimonakh_written, 16);
AT(rimonakh_written, length, 8);
SIZE(rimonakh_counts, 40);
AT(rimonakh_counts, exporters, 8);
AT(rimonakh_counts, objects, 16);
AT(rimonakh_counts, interfaces, 24);
AT(rimonakh_counts, sets, 32);
SIZE(rimonakh_member_count, 16);
AT(rimonakh_member_count, count, 8);
SIZE(rimonakh_released, 20);
AT(rimonakh_released, public_refs, 4);
AT(rimonakh_released, private_refs, 8);
AT(rimonakh_released, interfaces, 12);
AT(rimonakh_released, objects, 16);
SIZE(rimonakh_pinged, 24);
AT(rimonakh_pinged, set, 8);
AT(rimonakh_pinged, backoff, 16);
SIZE(rimonakh_resolved, 32);
AT(rimonakh_resolved, length, 8);
AT(rimonakh_resolved, unknown, 16);
SIZE(rimonakh_stop_place, 24);
AT(rimonakh_stop_place, in_store, 4);
AT(rimonakh_stop_place, from, 8);
AT(rimonakh_stop_place, to, 16);
SIZE(rimonakh_tally, 24);
AT(rimonakh_tally, taken, 8);
AT(rimonakh_tally, rundown, 16);
SIZE(rimonakh_outcome, 32);
AT(rimonakh_outcome, differs, 4);
AT(rimonakh_outcome, tally, 8);
SIZE(rimonakh_prefix, 16);
AT(rimonakh_prefix, end, 8);
SIZE(rimonakh_fragments, 104);
AT(rimonakh_fragments, kept, 88);
AT(rimonakh_fragments, seen, 96);
AT(rimonakh_fragments, low, 100);
AT(rimonakh_fragments, mode, 101);
AT(rimonakh_fragments, over, 102);
SIZE(rimonakh_finished, 120);
AT(rimonakh_finished, reference, 8);
AT(rimonakh_finished, length, 112);

static uint64_t words[RIMONAKH_WORDS];
static uint8_t store[RIMONAKH_BYTES];
#define TABLE words, RIMONAKH_WORDS, store, RIMONAKH_BYTES

/* tower 7, an empty address; service 10, no name */
static const uint8_t list[] = {7, 0, 3, 0, 7, 0, 0, 0, 0, 0, 10, 0, 0xFF, 0xFF, 0, 0, 0, 0};
#define LIST list, sizeof list

static int failed;

static void expect(int line, uint64_t got, uint64_t wanted) {
    if (got != wanted) {
        printf("line %d: %llu, not %llu\n", line, (unsigned long long)got, (unsigned long long)wanted);
        failed = 1;
    }
}
#define IS(got, wanted) expect(__LINE__, (uint64_t)(got), (uint64_t)(wanted))

static const uint8_t data[] = {1, 2, 3};

/* tail is the list or the object data, content the data of the element */
static size_t write_with(uint32_t flags, uint64_t clsid_low, uint64_t clsid_high, const uint8_t *tail, size_t tail_len,
                         const uint8_t *content, size_t content_len, uint8_t *buffer, size_t room) {
    rimonakh_written w = rimonakh_reference_write(flags, 0x11, 0x12, RIMONAKH_NO_PING, 5, 0x51, 0x41, 0x71, 0x72,
                                                  clsid_low, clsid_high, 8, 3, 0x33, 0x34, tail, tail_len, content,
                                                  content_len, buffer, room);
    IS(w.answer, RIMONAKH_DONE);
    return w.length;
}

static size_t write_reference(uint32_t flags, uint8_t *buffer, size_t room) {
    int custom = flags == RIMONAKH_CUSTOM;
    return write_with(flags, 0x31, 0x32, custom ? data : list, custom ? sizeof data : sizeof list, data, sizeof data,
                      buffer, room);
}

/* a context with two properties, the first without data */
static size_t write_context(uint8_t *buffer, size_t room) {
    uint8_t properties[128];
    rimonakh_written w = rimonakh_property_write(0x81, 0x82, 0x83, 0x84, 1, data, 0, properties, sizeof properties);
    IS(w.answer, 0);
    IS(w.length, 40);
    w = rimonakh_property_write(0x85, 0x86, 0x87, 0x88, 4, data, sizeof data, properties + 40, sizeof properties - 40);
    IS(w.length, 43);
    w = rimonakh_context_write(0x91, 0x92, 0x93, 0x94, 2, 1, properties, 83, buffer, room);
    IS(w.answer, 0);
    return w.length;
}

/* in a reference of the context marshaler */
static size_t write_context_reference(uint8_t *buffer, size_t room) {
    uint8_t context[256];
    size_t n = write_context(context, sizeof context);
    return write_with(RIMONAKH_CUSTOM, 0x33B, 0x46000000000000C0, context, n, data, 0, buffer, room);
}

/* the same in an extended reference in an extended one */
static size_t write_nested(uint8_t *buffer, size_t room) {
    uint8_t inner[256], middle[384];
    size_t n = write_context_reference(inner, sizeof inner);
    n = write_with(RIMONAKH_EXTENDED, 0, 0, LIST, inner, n, middle, sizeof middle);
    return write_with(RIMONAKH_EXTENDED, 0, 0, LIST, middle, n, buffer, room);
}

static void expect_extension(int line, rimonakh_extension x, uint64_t number, size_t from, size_t to) {
    expect(line, x.answer, 0);
    expect(line, x.pointer, number);
    expect(line, x.id.low, 10 * number);
    expect(line, x.id.high, 10 * number + 1);
    expect(line, x.from, from);
    expect(line, x.to, to);
}

static void walk_extensions(const uint8_t *bytes, size_t n, rimonakh_extension_cursor c) {
    IS(c.answer, 0);
    size_t at = c.at;
    rimonakh_extension_step x = rimonakh_next_extension(bytes, n, c.pointer, c.at, c.left);
    expect_extension(__LINE__, x.extension, 6, at + 24, at + 27);
    x = rimonakh_next_extension(bytes, n, x.pointer, x.at, x.left);
    expect_extension(__LINE__, x.extension, 7, at + 56, at + 64);
    IS(rimonakh_next_extension(bytes, n, x.pointer, x.at, x.left).extension.answer, RIMONAKH_NO_BINDING);
}

/* two extensions, with 3 and 8 bytes of data */
static void headers(void) {
    static const uint64_t entries[] = {60, 61, 6, 3, 70, 71, 7, 8};
    static const uint8_t contents[] = {1, 2, 3, 11, 12, 13, 14, 15, 16, 17, 18};
    uint8_t buffer[160];
    rimonakh_written w = rimonakh_this_write_extensions(7, 1, 2, 3, 4, 5, entries, 8, contents, 11, buffer, sizeof buffer);
    IS(w.answer, 0);
    IS(w.length, 120);
    rimonakh_read_this call = rimonakh_this_read(buffer, sizeof buffer);
    IS(call.answer, 0);
    IS(call.header.minor, 7);
    IS(call.header.flags, 1);
    IS(call.header.causality.low, 2);
    IS(call.header.causality.high, 3);
    IS(call.extensions.pointer, 4);
    IS(call.extensions.array, 5);
    IS(call.extensions.count, 2);
    IS(call.length, 120);
    expect_extension(__LINE__, rimonakh_this_extension(buffer, sizeof buffer, 0), 6, 80, 83);
    expect_extension(__LINE__, rimonakh_this_extension(buffer, sizeof buffer, 1), 7, 112, 120);
    IS(rimonakh_this_extension(buffer, sizeof buffer, 2).answer, RIMONAKH_NO_BINDING);
    walk_extensions(buffer, sizeof buffer, rimonakh_this_extensions(buffer, sizeof buffer));
    w = rimonakh_that_write_extensions(9, 4, 5, entries, 8, contents, 11, buffer, sizeof buffer);
    IS(w.answer, 0);
    IS(w.length, 96);
    walk_extensions(buffer, sizeof buffer, rimonakh_that_extensions(buffer, sizeof buffer));
    rimonakh_read_that reply = rimonakh_that_read(buffer, sizeof buffer);
    IS(reply.answer, 0);
    IS(reply.header.flags, 9);
    IS(reply.extensions.pointer, 4);
    IS(reply.extensions.array, 5);
    IS(reply.extensions.count, 2);
    IS(reply.length, 96);
    expect_extension(__LINE__, rimonakh_that_extension(buffer, sizeof buffer, 1), 7, 88, 96);
    IS(rimonakh_that_write_extensions(9, 0, 5, entries, 8, contents, 11, buffer, sizeof buffer).answer, RIMONAKH_LAYOUT);
}

static void bytes(void) {
    uint8_t buffer[128];
    IS(rimonakh_version(), RIMONAKH_VERSION);
    IS(rimonakh_wire_code(RIMONAKH_NO_SET), 1912);
    IS(rimonakh_wire_code(RIMONAKH_BAD_VERSION), 0x80010110);
    IS(rimonakh_this_write(7, 1, 2, 3, buffer, sizeof buffer), 0);
    rimonakh_read_this call = rimonakh_this_read(buffer, sizeof buffer);
    IS(call.answer, 0);
    IS(call.header.minor, 7);
    IS(call.header.flags, 1);
    IS(call.header.causality.low, 2);
    IS(call.header.causality.high, 3);
    IS(rimonakh_that_write(9, buffer, sizeof buffer), 0);
    rimonakh_read_that reply = rimonakh_that_read(buffer, sizeof buffer);
    IS(reply.answer, 0);
    IS(reply.header.flags, 9);
    IS(rimonakh_list_answer(LIST), 0);
    IS(rimonakh_list_front_answer(LIST), 0);
    IS(rimonakh_list_front_length(LIST), 18);
    rimonakh_place p = rimonakh_list_string_binding(LIST, 0);
    IS(p.answer, 0);
    IS(p.from, 4);
    IS(p.to, 8);
    p = rimonakh_list_security_binding(LIST, 0);
    IS(p.from, 10);
    IS(p.to, 16);
    IS(rimonakh_list_security_binding(LIST, 1).answer, RIMONAKH_NO_BINDING);
    static const uint16_t strings[] = {7, 0}, security[] = {10, 0xFFFF, 0};
    rimonakh_written w = rimonakh_list_write(strings, 2, security, 3, buffer, sizeof buffer);
    IS(w.answer, 0);
    IS(w.length, sizeof list);
    IS(memcmp(buffer, list, sizeof list), 0);
    IS(rimonakh_list_write(security, 3, strings, 2, buffer, sizeof buffer).answer, RIMONAKH_LAYOUT);
    IS(rimonakh_list_write(strings, 2, security, 3, buffer, sizeof list - 1).answer, RIMONAKH_NO_ROOM);
    size_t n = write_reference(RIMONAKH_HANDLER, buffer, sizeof buffer);
    IS(n, 98);
    IS(rimonakh_reference_answer(buffer, n), 0);
    rimonakh_read_reference r = rimonakh_reference_read(buffer, n);
    IS(r.answer, 0);
    IS(r.reference.flags, RIMONAKH_HANDLER);
    IS(r.reference.iid.low, 0x11);
    IS(r.reference.iid.high, 0x12);
    IS(r.reference.block.flags, RIMONAKH_NO_PING);
    IS(r.reference.block.public_refs, 5);
    IS(r.reference.block.oxid, 0x51);
    IS(r.reference.block.oid, 0x41);
    IS(r.reference.block.ipid.low, 0x71);
    IS(r.reference.block.ipid.high, 0x72);
    IS(r.reference.clsid.low, 0x31);
    IS(r.reference.clsid.high, 0x32);
    IS(rimonakh_reference_tail(buffer, n).from, 80);
    IS(rimonakh_reference_string_binding(buffer, n, 0).from, 84);
    IS(rimonakh_reference_security_binding(buffer, n, 0).to, 96);
    n = write_reference(RIMONAKH_CUSTOM, buffer, sizeof buffer);
    r = rimonakh_reference_read(buffer, n);
    IS(r.reference.extension, 8);
    IS(r.reference.size, 3);
    n = write_reference(RIMONAKH_EXTENDED, buffer, sizeof buffer);
    IS(n, 126);
    r = rimonakh_reference_read(buffer, n);
    IS(r.reference.flags, RIMONAKH_EXTENDED);
    IS(r.reference.element.low, 0x33);
    IS(r.reference.element.high, 0x34);
    p = rimonakh_reference_element(buffer, n, 0);
    IS(p.answer, 0);
    IS(p.from, 118);
    IS(p.to, 121);
    IS(rimonakh_reference_element(buffer, n, 1).answer, RIMONAKH_NO_BINDING);
}

static void contexts(void) {
    uint8_t buffer[256];
    size_t n = write_context(buffer, sizeof buffer);
    rimonakh_read_context c = rimonakh_context_read(buffer, n);
    IS(c.answer, 0);
    IS(c.context.id.low, 0x91);
    IS(c.context.id.high, 0x92);
    IS(c.context.reserved, 0x93);
    IS(c.context.marshal, 0x94);
    IS(c.context.count, 2);
    IS(c.context.frozen, 1);
    rimonakh_read_property p = rimonakh_context_property(buffer, n, 1);
    IS(p.answer, 0);
    IS(p.property.clsid.low, 0x85);
    IS(p.property.clsid.high, 0x86);
    IS(p.property.policy.low, 0x87);
    IS(p.property.policy.high, 0x88);
    IS(p.property.flags, 4);
    n = write_context_reference(buffer, sizeof buffer);
    rimonakh_place place = rimonakh_reference_property(buffer, n, 1);
    IS(place.answer, 0);
    IS(place.from, n - 3);
    IS(place.to, n);
    IS(rimonakh_reference_property(buffer, n, 2).answer, RIMONAKH_NO_BINDING);
}

/* the bindings of the list, the properties of a context and the extensions of both headers, each in one pass */
static void passes(void) {
    uint8_t buffer[256];
    rimonakh_cursor c = rimonakh_list_strings(LIST);
    IS(c.answer, 0);
    rimonakh_step b = rimonakh_list_next_string(LIST, c.at, c.left);
    IS(b.answer, 0);
    IS(b.from, 4);
    IS(b.to, 8);
    IS(rimonakh_list_next_string(LIST, b.to, b.left).answer, RIMONAKH_NO_BINDING);
    IS(rimonakh_list_next_string(LIST, 4, sizeof list).answer, RIMONAKH_SHORT);
    c = rimonakh_list_securities(LIST);
    b = rimonakh_list_next_security(LIST, c.at, c.left);
    IS(b.from, 10);
    IS(b.to, 16);
    IS(rimonakh_list_next_security(LIST, b.to, b.left).answer, RIMONAKH_NO_BINDING);
    size_t n = write_context(buffer, sizeof buffer);
    c = rimonakh_context_properties(buffer, n);
    rimonakh_property_step p = rimonakh_context_next_property(buffer, n, c.at, c.left);
    p = rimonakh_context_next_property(buffer, n, p.to, p.left);
    IS(p.answer, 0);
    IS(p.property.clsid.low, 0x85);
    IS(p.property.policy.high, 0x88);
    IS(p.property.flags, 4);
    IS(p.from, n - 3);
    IS(p.to, n);
    IS(rimonakh_context_next_property(buffer, n, p.to, p.left).answer, RIMONAKH_NO_BINDING);
}

static void fragments(void) {
    uint8_t buffer[128], waiting[32], last[32];
    size_t n = write_reference(RIMONAKH_HANDLER, buffer, sizeof buffer);
    memset(last, 0xEE, sizeof last);
    rimonakh_fragments state = rimonakh_fragments_none();
    IS(rimonakh_fragments_finish(state, waiting, sizeof waiting, last, sizeof last).answer, RIMONAKH_SHORT);
    state = rimonakh_fragments_push(state, waiting, sizeof waiting, buffer, 83);
    state = rimonakh_fragments_push(state, waiting, sizeof waiting, buffer + 83, n - 83);
    IS(rimonakh_fragments_finish(state, waiting, sizeof waiting, last, sizeof list - 1).answer, RIMONAKH_NO_ROOM);
    IS(last[0], 0xEE);
    rimonakh_finished done = rimonakh_fragments_finish(state, waiting, sizeof waiting, last, sizeof last);
    IS(done.answer, RIMONAKH_DONE);
    IS(done.reference.flags, RIMONAKH_HANDLER);
    IS(done.reference.block.oid, 0x41);
    IS(done.reference.clsid.high, 0x32);
    IS(done.length, sizeof list);
    IS(memcmp(last, list, sizeof list), 0);
    IS(last[sizeof list], 0xEE);
}

/* a section of a record: its number of bytes, then these */
static size_t put_section(uint8_t *to, const void *bytes, size_t n) {
    memset(to, 0, 8);
    to[0] = n & 0xFF;
    to[1] = n >> 8 & 0xFF;
    memcpy(to + 8, bytes, n);
    return 8 + n;
}

/* a record of a call without a second list that shows nothing */
static size_t put_record(uint8_t *to, const void *call, size_t call_len, const void *first, size_t first_len,
                         const void *answer, size_t answer_len) {
    size_t n = put_section(to, call, call_len);
    n += put_section(to + n, first, first_len);
    n += put_section(to + n, "", 0);
    n += put_section(to + n, answer, answer_len);
    return n + put_section(to + n, "", 0);
}

/* the load of a snapshot of the table in calls, a release, and a clock by which the last object goes */
static void replay(const uint8_t *snapshot, size_t snapshot_len) {
    static uint8_t recording[1024] = {3};
    const uint8_t load = 19;
    const uint8_t release[29] = {6, 3, 0, 0, 0, 0x71, 0, 0, 0, 0, 0, 0, 0, 0x72, 0, 0, 0, 0, 0, 0, 0, 9, 0, 0, 0, 2};
    const uint8_t clock[9] = {12, 1360 & 0xFF, 1360 >> 8};
    const uint8_t done[40] = {0};
    const uint8_t released[40] = {0, 0, 0, 0, 0, 0, 0, 0, 6, 0, 0, 0, 0, 0, 0, 0, 2, 0, 0, 0, 0, 0, 0, 0, 1};
    const uint8_t expired[40] = {0, 0, 0, 0, 0, 0, 0, 0, 0, 0, 0, 0, 0, 0, 0, 0, 1,
                                 0, 0, 0, 0, 0, 0, 0, 1, 0, 0, 0, 0, 0, 0, 0, 1};
    size_t n = 8 + put_record(recording + 8, &load, 1, snapshot, snapshot_len, done, 8);
    n += put_record(recording + n, release, sizeof release, "", 0, released, sizeof released);
    const size_t two = n;
    n += put_record(recording + n, clock, sizeof clock, "", 0, expired, sizeof expired);
    rimonakh_outcome outcome = rimonakh_replay(TABLE, recording, n);
    IS(outcome.answer, 0);
    IS(outcome.differs, 0);
    IS(outcome.tally.granted, 9);
    IS(outcome.tally.taken, 8);
    IS(outcome.tally.rundown, 1);
    recording[n - 16] = 2; /* sets that went */
    outcome = rimonakh_replay(TABLE, recording, n);
    IS(outcome.answer, 0);
    IS(outcome.differs, 3);
    IS(outcome.tally.rundown, 1);
    IS(rimonakh_replay(TABLE, recording, n - 1).answer, RIMONAKH_SHORT);
    recording[0] = 2;
    IS(rimonakh_replay(TABLE, recording, n).answer, RIMONAKH_LAYOUT);
    recording[0] = 77; /* whatever it says */
    IS(rimonakh_whole_records(recording, n).count, 3);
    IS(rimonakh_whole_records(recording, n).end, n);
    rimonakh_prefix whole = rimonakh_whole_records(recording, n - 1);
    IS(whole.count, 2);
    IS(whole.end, two);
    recording[0] = 2;
    outcome = rimonakh_replay(TABLE, recording, whole.end);
    IS(outcome.answer, 0);
    IS(outcome.differs, 0);
    IS(outcome.tally.taken, 8);
    IS(rimonakh_whole_records(recording, 8).end, 8);
    IS(rimonakh_whole_records(recording, 7).end, 0);
}

static void calls(void) {
    uint8_t reference[128], buffer[64];
    const uint64_t oids[] = {0x41};
    size_t n = write_reference(RIMONAKH_STANDARD, reference, sizeof reference);
    IS(rimonakh_reset(TABLE, 1000), 0);
    IS(rimonakh_enter_exporter(TABLE, 0x51, 0x61, 0x62, LIST), 0);
    IS(rimonakh_enter_object(TABLE, 0x41, 0x51, 0x71, 0x72, 0x11, 0x12, 5, false), 0);
    IS(rimonakh_enter_interface(TABLE, 0x41, 0x73, 0x74, 0x11, 0x12, 1), 0);
    IS(rimonakh_add(TABLE, 3, 0x71, 0x72, 1, 2), 0);
    IS(rimonakh_add(TABLE, 8, 0x71, 0x72, 1, 2), RIMONAKH_NO_CLIENT);
    IS(rimonakh_drop_client(TABLE, 2), 0);
    uint8_t items[48] = {0x71, 0, 0, 0, 0, 0, 0, 0, 0x72, 0, 0, 0, 0, 0, 0, 0, 1, 0, 0, 0, 2}; /* then an IPID of zeros */
    uint8_t results[3] = {9, 9, 9};
    IS(rimonakh_add_list(TABLE, 5, items, sizeof items, results, sizeof results), 0);
    IS(results[0], 0);
    IS(results[1], RIMONAKH_NO_INTERFACE);
    IS(results[2], 9);
    IS(rimonakh_release_list(TABLE, 5, items, sizeof items, results, 1), RIMONAKH_NO_ROOM);
    IS(rimonakh_release_list(TABLE, 5, items, 24, results, 1), 0);
    rimonakh_pinged ping = rimonakh_complex_ping(TABLE, 0, 1, oids, 1, oids, 0);
    IS(ping.answer, 0);
    IS(ping.set, 1);
    IS(ping.backoff, 0);
    IS(rimonakh_simple_ping(TABLE, 1), 0);
    IS(rimonakh_members(TABLE, 1).count, 1);
    rimonakh_stop_place stop = rimonakh_next_stop(TABLE, reference, n);
    IS(stop.answer, 0);
    IS(stop.in_store, true);
    IS(stop.from, 0);
    IS(stop.to, sizeof list);
    rimonakh_resolved found = rimonakh_resolve(TABLE, 0x51, buffer, sizeof buffer);
    IS(found.answer, 0);
    IS(found.length, sizeof list);
    IS(found.unknown.low, 0x61);
    IS(found.unknown.high, 0x62);
    IS(memcmp(buffer, list, sizeof list), 0);
    const uint16_t protocols[] = {8};
    found = rimonakh_resolve_filtered(TABLE, 0x51, protocols, 1, buffer, sizeof buffer);
    IS(found.answer, 0);
    IS(found.length, sizeof list - 4);
    IS(found.unknown.high, 0x62);
    IS(buffer[2], 1);
    static uint8_t snapshot[RIMONAKH_LONGEST_SNAPSHOT];
    rimonakh_written saved = rimonakh_write_snapshot(TABLE, snapshot, sizeof snapshot);
    IS(saved.answer, 0);
    IS(saved.length, 18 + 2 + 26 + sizeof list + 2 + 25 + 2 + 2 * 76 + 2 + 20 + 8);
    IS(snapshot[2], 1000 & 0xFF);
    IS(rimonakh_write_snapshot(TABLE, snapshot, saved.length - 1).answer, RIMONAKH_NO_ROOM);
    IS(rimonakh_reset(TABLE, 7), 0);
    IS(rimonakh_load_snapshot(TABLE, snapshot, saved.length - 1), RIMONAKH_NO_SNAPSHOT);
    replay(snapshot, saved.length);
    IS(rimonakh_load_snapshot(TABLE, snapshot, saved.length), 0);
    rimonakh_released gone = rimonakh_release(TABLE, 3, 0x71, 0x72, 9, 2);
    IS(gone.answer, 0);
    IS(gone.public_refs, 6);
    IS(gone.private_refs, 2);
    IS(gone.interfaces, 1);
    IS(gone.objects, 0);
    rimonakh_counts c = rimonakh_census(TABLE);
    IS(c.answer, 0);
    IS(c.exporters, 1);
    IS(c.objects, 1);
    IS(c.interfaces, 1);
    IS(c.sets, 1);
    c = rimonakh_clock(TABLE, 1360);
    IS(c.exporters, 0);
    IS(c.objects, 1);
    IS(c.interfaces, 1);
    IS(c.sets, 1);
    IS(rimonakh_remove_exporter(TABLE, 0x51), 0);
    IS(rimonakh_remove_exporter(TABLE, 0x51), RIMONAKH_NO_EXPORTER);
}

/* A buffer may be NULL where its length is 0: each buffer of each function. */
static void nulls_of_bytes(void) {
    uint8_t buffer[128];
    IS(rimonakh_this_read(NULL, 0).answer, RIMONAKH_SHORT);
    IS(rimonakh_this_extension(NULL, 0, 0).answer, RIMONAKH_SHORT);
    IS(rimonakh_this_write(7, 0, 0, 0, NULL, 0), RIMONAKH_NO_ROOM);
    IS(rimonakh_this_write_extensions(7, 0, 0, 0, 0, 0, NULL, 0, NULL, 0, buffer, sizeof buffer).length, 32);
    IS(rimonakh_this_write_extensions(7, 0, 0, 0, 0, 0, NULL, 0, NULL, 0, NULL, 0).answer, RIMONAKH_NO_ROOM);
    IS(rimonakh_that_read(NULL, 0).answer, RIMONAKH_SHORT);
    IS(rimonakh_that_extension(NULL, 0, 0).answer, RIMONAKH_SHORT);
    IS(rimonakh_that_write(0, NULL, 0), RIMONAKH_NO_ROOM);
    IS(rimonakh_that_write_extensions(0, 0, 0, NULL, 0, NULL, 0, buffer, sizeof buffer).length, 8);
    IS(rimonakh_that_write_extensions(0, 0, 0, NULL, 0, NULL, 0, NULL, 0).answer, RIMONAKH_NO_ROOM);
    IS(rimonakh_list_answer(NULL, 0), RIMONAKH_SHORT);
    IS(rimonakh_list_front_answer(NULL, 0), RIMONAKH_SHORT);
    IS(rimonakh_list_front_length(NULL, 0), 0);
    IS(rimonakh_list_string_binding(NULL, 0, 0).answer, RIMONAKH_SHORT);
    IS(rimonakh_list_security_binding(NULL, 0, 0).answer, RIMONAKH_SHORT);
    IS(rimonakh_list_write(NULL, 0, NULL, 0, buffer, sizeof buffer).length, 8);
    IS(rimonakh_list_write(NULL, 0, NULL, 0, NULL, 0).answer, RIMONAKH_NO_ROOM);
    IS(rimonakh_reference_answer(NULL, 0), RIMONAKH_SHORT);
    IS(rimonakh_reference_read(NULL, 0).answer, RIMONAKH_SHORT);
    IS(rimonakh_reference_tail(NULL, 0).answer, RIMONAKH_SHORT);
    IS(rimonakh_reference_string_binding(NULL, 0, 0).answer, RIMONAKH_SHORT);
    IS(rimonakh_reference_security_binding(NULL, 0, 0).answer, RIMONAKH_SHORT);
    IS(rimonakh_reference_element(NULL, 0, 0).answer, RIMONAKH_SHORT);
    IS(rimonakh_reference_property(NULL, 0, 0).answer, RIMONAKH_SHORT);
    IS(write_with(RIMONAKH_CUSTOM, 1, 1, NULL, 0, NULL, 0, buffer, sizeof buffer), 48);
    IS(rimonakh_reference_write(RIMONAKH_CUSTOM, 1, 1, 0, 0, 0, 0, 0, 0, 1, 1, 0, 0, 0, 0, NULL, 0, NULL, 0, NULL, 0).answer,
       RIMONAKH_NO_ROOM);
    IS(rimonakh_context_read(NULL, 0).answer, RIMONAKH_SHORT);
    IS(rimonakh_context_property(NULL, 0, 0).answer, RIMONAKH_SHORT);
    IS(rimonakh_context_write(1, 1, 0, 0, 0, 0, NULL, 0, buffer, sizeof buffer).length, 48);
    IS(rimonakh_context_write(1, 1, 0, 0, 0, 0, NULL, 0, NULL, 0).answer, RIMONAKH_NO_ROOM);
    IS(rimonakh_property_write(1, 1, 1, 1, 1, NULL, 0, buffer, sizeof buffer).length, 40);
    IS(rimonakh_property_write(1, 1, 1, 1, 1, NULL, 0, NULL, 0).answer, RIMONAKH_NO_ROOM);
    IS(rimonakh_list_strings(NULL, 0).answer, RIMONAKH_SHORT);
    IS(rimonakh_list_securities(NULL, 0).answer, RIMONAKH_SHORT);
    IS(rimonakh_list_next_string(NULL, 0, 4, 1).answer, RIMONAKH_SHORT);
    IS(rimonakh_list_next_security(NULL, 0, 0, 0).answer, RIMONAKH_NO_BINDING);
    IS(rimonakh_context_properties(NULL, 0).answer, RIMONAKH_SHORT);
    IS(rimonakh_context_next_property(NULL, 0, 0, 1).answer, RIMONAKH_SHORT);
    IS(rimonakh_this_extensions(NULL, 0).answer, RIMONAKH_SHORT);
    IS(rimonakh_that_extensions(NULL, 0).answer, RIMONAKH_SHORT);
    IS(rimonakh_next_extension(NULL, 0, 0, 0, 1).extension.answer, RIMONAKH_SHORT);
    rimonakh_fragments state = rimonakh_fragments_push(rimonakh_fragments_none(), NULL, 0, NULL, 0);
    IS(rimonakh_fragments_finish(state, NULL, 0, NULL, 0).answer, RIMONAKH_SHORT);
    size_t n = write_with(RIMONAKH_CUSTOM, 1, 1, NULL, 0, NULL, 0, buffer, sizeof buffer);
    state = rimonakh_fragments_push(state, NULL, 0, buffer, n);
    IS(rimonakh_fragments_finish(state, NULL, 0, NULL, 0).answer, RIMONAKH_DONE);
}

/* words or store of none: the table has the wrong length */
static void nulls_of_tables(void) {
    IS(rimonakh_reset(NULL, 0, store, RIMONAKH_BYTES, 1), RIMONAKH_UNSOUND);
    IS(rimonakh_enter_exporter(NULL, 0, store, RIMONAKH_BYTES, 1, 1, 1, LIST), RIMONAKH_UNSOUND);
    IS(rimonakh_remove_exporter(NULL, 0, store, RIMONAKH_BYTES, 1), RIMONAKH_UNSOUND);
    IS(rimonakh_enter_object(NULL, 0, store, RIMONAKH_BYTES, 1, 1, 1, 1, 1, 1, 1, false), RIMONAKH_UNSOUND);
    IS(rimonakh_enter_interface(NULL, 0, store, RIMONAKH_BYTES, 1, 1, 1, 1, 1, 1), RIMONAKH_UNSOUND);
    IS(rimonakh_add(NULL, 0, store, RIMONAKH_BYTES, 0, 1, 1, 1, 1), RIMONAKH_UNSOUND);
    IS(rimonakh_release(NULL, 0, store, RIMONAKH_BYTES, 0, 1, 1, 1, 1).answer, RIMONAKH_UNSOUND);
    IS(rimonakh_add_list(NULL, 0, store, RIMONAKH_BYTES, 0, NULL, 0, NULL, 0), RIMONAKH_UNSOUND);
    IS(rimonakh_release_list(NULL, 0, store, RIMONAKH_BYTES, 0, NULL, 0, NULL, 0), RIMONAKH_UNSOUND);
    IS(rimonakh_drop_client(NULL, 0, store, RIMONAKH_BYTES, 0), RIMONAKH_UNSOUND);
    IS(rimonakh_simple_ping(NULL, 0, store, RIMONAKH_BYTES, 1), RIMONAKH_UNSOUND);
    IS(rimonakh_complex_ping(NULL, 0, store, RIMONAKH_BYTES, 0, 1, NULL, 0, NULL, 0).answer, RIMONAKH_UNSOUND);
    IS(rimonakh_clock(NULL, 0, store, RIMONAKH_BYTES, 1).answer, RIMONAKH_UNSOUND);
    IS(rimonakh_resolve(NULL, 0, store, RIMONAKH_BYTES, 1, NULL, 0).answer, RIMONAKH_UNSOUND);
    IS(rimonakh_resolve_filtered(NULL, 0, store, RIMONAKH_BYTES, 1, NULL, 0, NULL, 0).answer, RIMONAKH_UNSOUND);
    IS(rimonakh_next_stop(NULL, 0, store, RIMONAKH_BYTES, LIST).answer, RIMONAKH_UNSOUND);
    IS(rimonakh_census(NULL, 0, store, RIMONAKH_BYTES).answer, RIMONAKH_UNSOUND);
    IS(rimonakh_members(NULL, 0, store, RIMONAKH_BYTES, 1).answer, RIMONAKH_UNSOUND);
    IS(rimonakh_write_snapshot(NULL, 0, store, RIMONAKH_BYTES, NULL, 0).answer, RIMONAKH_UNSOUND);
    IS(rimonakh_load_snapshot(NULL, 0, store, RIMONAKH_BYTES, LIST), RIMONAKH_UNSOUND);
    IS(rimonakh_replay(NULL, 0, store, RIMONAKH_BYTES, LIST).answer, RIMONAKH_UNSOUND);
    IS(rimonakh_reset(words, RIMONAKH_WORDS, NULL, 0, 1), RIMONAKH_UNSOUND);
    IS(rimonakh_enter_exporter(words, RIMONAKH_WORDS, NULL, 0, 1, 1, 1, LIST), RIMONAKH_UNSOUND);
    IS(rimonakh_remove_exporter(words, RIMONAKH_WORDS, NULL, 0, 1), RIMONAKH_UNSOUND);
    IS(rimonakh_enter_object(words, RIMONAKH_WORDS, NULL, 0, 1, 1, 1, 1, 1, 1, 1, false), RIMONAKH_UNSOUND);
    IS(rimonakh_enter_interface(words, RIMONAKH_WORDS, NULL, 0, 1, 1, 1, 1, 1, 1), RIMONAKH_UNSOUND);
    IS(rimonakh_add(words, RIMONAKH_WORDS, NULL, 0, 0, 1, 1, 1, 1), RIMONAKH_UNSOUND);
    IS(rimonakh_release(words, RIMONAKH_WORDS, NULL, 0, 0, 1, 1, 1, 1).answer, RIMONAKH_UNSOUND);
    IS(rimonakh_add_list(words, RIMONAKH_WORDS, NULL, 0, 0, NULL, 0, NULL, 0), RIMONAKH_UNSOUND);
    IS(rimonakh_release_list(words, RIMONAKH_WORDS, NULL, 0, 0, NULL, 0, NULL, 0), RIMONAKH_UNSOUND);
    IS(rimonakh_drop_client(words, RIMONAKH_WORDS, NULL, 0, 0), RIMONAKH_UNSOUND);
    IS(rimonakh_simple_ping(words, RIMONAKH_WORDS, NULL, 0, 1), RIMONAKH_UNSOUND);
    IS(rimonakh_complex_ping(words, RIMONAKH_WORDS, NULL, 0, 0, 1, NULL, 0, NULL, 0).answer, RIMONAKH_UNSOUND);
    IS(rimonakh_clock(words, RIMONAKH_WORDS, NULL, 0, 1).answer, RIMONAKH_UNSOUND);
    IS(rimonakh_resolve(words, RIMONAKH_WORDS, NULL, 0, 1, NULL, 0).answer, RIMONAKH_UNSOUND);
    IS(rimonakh_resolve_filtered(words, RIMONAKH_WORDS, NULL, 0, 1, NULL, 0, NULL, 0).answer, RIMONAKH_UNSOUND);
    IS(rimonakh_next_stop(words, RIMONAKH_WORDS, NULL, 0, LIST).answer, RIMONAKH_UNSOUND);
    IS(rimonakh_census(words, RIMONAKH_WORDS, NULL, 0).answer, RIMONAKH_UNSOUND);
    IS(rimonakh_members(words, RIMONAKH_WORDS, NULL, 0, 1).answer, RIMONAKH_UNSOUND);
    IS(rimonakh_write_snapshot(words, RIMONAKH_WORDS, NULL, 0, NULL, 0).answer, RIMONAKH_UNSOUND);
    IS(rimonakh_load_snapshot(words, RIMONAKH_WORDS, NULL, 0, LIST), RIMONAKH_UNSOUND);
    IS(rimonakh_replay(words, RIMONAKH_WORDS, NULL, 0, LIST).answer, RIMONAKH_UNSOUND);
    IS(rimonakh_reset(TABLE, 1000), 0);
    IS(rimonakh_enter_exporter(TABLE, 0x51, 0x61, 0x62, NULL, 0), RIMONAKH_SHORT);
    IS(rimonakh_enter_exporter(TABLE, 0x51, 0x61, 0x62, LIST), 0);
    IS(rimonakh_add_list(TABLE, 0, NULL, 0, NULL, 0), 0);
    IS(rimonakh_release_list(TABLE, 0, NULL, 0, NULL, 0), 0);
    IS(rimonakh_complex_ping(TABLE, 0, 1, NULL, 0, NULL, 0).set, 1);
    IS(rimonakh_resolve(TABLE, 0x51, NULL, 0).answer, RIMONAKH_NO_ROOM);
    IS(rimonakh_resolve_filtered(TABLE, 0x51, NULL, 0, NULL, 0).answer, RIMONAKH_NO_ROOM);
    IS(rimonakh_next_stop(TABLE, NULL, 0).answer, RIMONAKH_SHORT);
    IS(rimonakh_write_snapshot(TABLE, NULL, 0).answer, RIMONAKH_NO_ROOM);
    IS(rimonakh_load_snapshot(TABLE, NULL, 0), RIMONAKH_NO_SNAPSHOT);
    IS(rimonakh_replay(TABLE, NULL, 0).answer, RIMONAKH_SHORT);
    IS(rimonakh_whole_records(NULL, 0).count, 0);
}

/* Time, as the header says: a client that pings, a jump, and a box that takes over. */
static void times(void) {
    static uint8_t snapshot[RIMONAKH_LONGEST_SNAPSHOT];
    const uint64_t oids[] = {0x41};
    IS(rimonakh_reset(TABLE, 1000), 0);
    IS(rimonakh_enter_exporter(TABLE, 0x51, 0x61, 0x62, LIST), 0);
    IS(rimonakh_enter_object(TABLE, 0x41, 0x51, 0x71, 0x72, 0x11, 0x12, 5, false), 0);
    IS(rimonakh_complex_ping(TABLE, 0, 1, oids, 1, oids, 0).answer, 0); /* one list read twice */
    IS(rimonakh_clock(TABLE, 1000 + RIMONAKH_SILENCE - 1).objects, 0);
    size_t n = rimonakh_write_snapshot(TABLE, snapshot, sizeof snapshot).length;
    /* with a call every five seconds it ends up to five seconds late */
    rimonakh_counts went = rimonakh_clock(TABLE, 1000 + RIMONAKH_SILENCE + 4);
    IS(went.objects, 1);
    IS(went.sets, 1);
    /* another box loads the snapshot: its own clock is of no use */
    IS(rimonakh_load_snapshot(TABLE, snapshot, n), 0);
    IS(rimonakh_clock(TABLE, 120).answer, RIMONAKH_CLOCK_BACK);
    IS(rimonakh_simple_ping(TABLE, 1), 0);
    IS(rimonakh_clock(TABLE, 1000 + RIMONAKH_SILENCE - 1 + 5).objects, 0);
    /* a jump ends everything, and can't be taken back, but by a snapshot from before it */
    IS(rimonakh_clock(TABLE, UINT64_MAX).objects, 1);
    IS(rimonakh_clock(TABLE, 2000).answer, RIMONAKH_CLOCK_BACK);
    IS(rimonakh_load_snapshot(TABLE, snapshot, n), 0);
    IS(rimonakh_census(TABLE).objects, 1);
    /* zeros are no table; a changed clock is no refusal of a snapshot */
    memset(words, 0, sizeof words);
    IS(rimonakh_census(TABLE).answer, RIMONAKH_UNSOUND);
    snapshot[2] ^= 1;
    IS(rimonakh_load_snapshot(TABLE, snapshot, n), 0);
}

static size_t write_named(const char *name, uint8_t *buffer, size_t room) {
    if (strcmp(name, "nested") == 0) {
        return write_nested(buffer, room);
    }
    return write_reference(strcmp(name, "handler") == 0    ? RIMONAKH_HANDLER
                           : strcmp(name, "extended") == 0 ? RIMONAKH_EXTENDED
                                                           : RIMONAKH_CUSTOM,
                           buffer, room);
}

int main(int argc, char **argv) {
    if (argc == 2) {
        uint8_t buffer[512];
        fwrite(buffer, 1, write_named(argv[1], buffer, sizeof buffer), stdout);
    } else {
        headers();
        bytes();
        contexts();
        passes();
        fragments();
        nulls_of_bytes();
        nulls_of_tables();
        times();
        calls();
    }
    return failed;
}
