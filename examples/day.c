/*
 * One reference through a day. A server registers and enters a tank level group, the reference goes out in bytes, a client
 * reads it, asks where to go next, resolves, takes more references, pings every two minutes from a set, the clock runs. At noon
 * the gateway's box is swapped: another one loads its snapshot, and serves on. The references are given back and the object
 * ends. Then the same with a client that falls silent. Each step is printed with its answer number. The day is recorded, call by
 * call with its answer, in the form of docs/RECORDING.md, and replayed at the end; with a file's name the recording is written there.
 *
 * The reference carries the addresses of the resolver, without an endpoint, as MS-DCOM wants it (sections 2.2.18.4 and 2.2.19.3); those of
 * the exporter, with one, stand in the table. So the next stop is seen to choose.
 *
 *     cc -Iinclude examples/day.c target/librimonakh.a -o day && ./day
 */
#include "rimonakh_more.h"

#include <inttypes.h>
#include <stdio.h>
#include <string.h>

/* The server's table: both buffers are ours, and are lent to every call. One in the box that goes, one in the box that comes. */
static rimonakh_table boxes[2];
static rimonakh_table *box = &boxes[0];

#define TABLE RIMONAKH_TABLE(box)

/* Identifiers that the server chose. */
static const uint64_t OXID = 0x1101;
static const uint64_t OID = 0x7E0A;
static const rimonakh_guid UNKNOWN = {0x0000110100000001, 0x4600000000000001};
static const rimonakh_guid IPID = {0x0000110100000002, 0x4600000000000002};
/* {39c13a54-011e-11d0-9675-0020afd8adb3}, a group of items */
static const rimonakh_guid IID = {0x11D0011E39C13A54, 0xB3ADD8AF20007596};

static void step(const char *what, uint32_t answer) {
    printf("%3" PRIu32 "  %s", answer, what);
}

static void done(const char *what, uint32_t answer) {
    step(what, answer);
    printf("\n");
}

/* The recording of the day: the number of its records in eight bytes, then the records, each of five sections after their numbers
 * of bytes: call, first list, second list, answer, shown. */
static uint8_t recording[16384];
static size_t recorded = 8;

static void put(uint64_t n, int bytes) {
    rimonakh_put(recording + recorded, n, bytes);
    recorded += (size_t)bytes;
}

static void put_guid(rimonakh_guid guid) {
    put(guid.low, 8);
    put(guid.high, 8);
}

static void put_section(const void *bytes, size_t n) {
    put(n, 8);
    memcpy(recording + recorded, bytes, n);
    recorded += n;
}

/* A call by its code, before its numbers, which take so many bytes. */
static void put_call(uint8_t code, size_t bytes) {
    put(1 + bytes, 8);
    put(code, 1);
    for (size_t i = 0; i < 8 && ++recording[i] == 0; i++) /* one record more */
        ;
}

/* The rest of a record: its list, and what was answered and shown. */
static void put_rest(const void *list, size_t list_len, uint32_t answer, const uint64_t *results, size_t n,
                     const void *shown, size_t shown_len) {
    put_section(list, list_len);
    put_section("", 0);
    put(8 + 8 * n, 8);
    put(answer, 8);
    for (size_t i = 0; i < n; i++)
        put(results[i], 8);
    put_section(shown, shown_len);
}

/* Of a call without a list and results. */
static uint32_t put_answer(uint32_t answer) {
    put_rest("", 0, answer, NULL, 0, "", 0);
    return answer;
}

static void put_counts(rimonakh_counts c) {
    const uint64_t results[] = {c.exporters, c.objects, c.interfaces, c.sets};
    put_rest("", 0, c.answer, results, 4, "", 0);
}

static void put_resolved(const void *protocols, size_t n, rimonakh_resolved r, const uint8_t *list) {
    const uint64_t results[] = {r.length, r.unknown.low, r.unknown.high};
    put_rest(protocols, n, r.answer, results, 3, list, r.length);
}

/* The binding list of one TCP address, without security bindings. Answers its length. */
static size_t tcp_list(const char *address, uint8_t *list) {
    uint16_t words[32];
    rimonakh_words strings = {words, 32, 0, false};
    rimonakh_put_string_binding(&strings, 7, address); /* the tower of TCP */
    return rimonakh_write_list(&strings, NULL, list, RIMONAKH_LONGEST_LIST).length;
}

/* Prints the address of the first string binding of a list. */
static void print_address(const uint8_t *list, size_t length) {
    char address[64];
    rimonakh_binding_text(list, rimonakh_list_string_binding(list, length, 0), 1, address, sizeof address);
    printf("%s", address);
}

/* The object is entered, and its reference is written, with the resolver's address. Answers the reference's length. */
static size_t serve(uint8_t *reference, size_t room) {
    const rimonakh_guid none = {0, 0};
    const rimonakh_reference made = {RIMONAKH_STANDARD, IID, {0, 5, OXID, OID, IPID}, none, 0, 0, none};
    uint8_t list[RIMONAKH_LONGEST_LIST];
    const size_t list_len = tcp_list("10.1.4.20", list);
    rimonakh_written written;
    uint32_t entered = rimonakh_enter_object(TABLE, OID, OXID, RIMONAKH_GUID(IPID), RIMONAKH_GUID(IID), 5, false);
    put_call(3, 53);
    put(OID, 8);
    put(OXID, 8);
    put_guid(IPID);
    put_guid(IID);
    put(5, 4);
    put(false, 1);
    done("server: enters the tank level group with 5 public references", put_answer(entered));
    written = rimonakh_write_reference(&made, list, list_len, NULL, 0, reference, room);
    step("server: writes the reference", written.answer);
    printf(", %zu bytes\n", written.length);
    return written.length;
}

/* Where a client goes with a reference: to the list of a live exporter in the store, or to the reference's own list. */
static void next_stop(const uint8_t *reference, size_t length) {
    rimonakh_stop_place stop = rimonakh_next_stop(TABLE, reference, length);
    const uint8_t *list = (stop.in_store ? box->store : reference) + stop.from;
    put_call(17, 0);
    put_rest(reference, length, stop.answer, NULL, 0, list, stop.to - stop.from);
    step("client: asks where to go next", stop.answer);
    printf(", %s, ", stop.in_store ? "the exporter's list" : "the reference's own list");
    print_address(list, stop.to - stop.from);
    printf("\n");
}

/* An exporter's binding list, into a buffer of RIMONAKH_LONGEST_LIST bytes. */
static rimonakh_resolved resolve(uint64_t oxid, uint8_t *list) {
    rimonakh_resolved resolved = rimonakh_resolve(TABLE, oxid, list, RIMONAKH_LONGEST_LIST);
    put_call(13, 16);
    put(oxid, 8);
    put(RIMONAKH_LONGEST_LIST, 8);
    put_resolved("", 0, resolved, list);
    step("client: resolves the exporter", resolved.answer);
    return resolved;
}

/* The same with the addresses of one protocol alone, UDP. */
static void resolve_udp(uint64_t oxid) {
    uint8_t list[RIMONAKH_LONGEST_LIST];
    const uint16_t udp = 8;
    const uint8_t udp_bytes[] = {8, 0};
    rimonakh_resolved resolved = rimonakh_resolve_filtered(TABLE, oxid, &udp, 1, list, sizeof list);
    put_call(14, 16);
    put(oxid, 8);
    put(sizeof list, 8);
    put_resolved(udp_bytes, sizeof udp_bytes, resolved, list);
    step("client: resolves it for UDP alone", resolved.answer);
    printf(", %zu bytes\n", resolved.length);
}

static void add(const char *what, uint32_t client, uint32_t public_refs, uint32_t private_refs) {
    uint32_t answer = rimonakh_add(TABLE, client, RIMONAKH_GUID(IPID), public_refs, private_refs);
    put_call(5, 28);
    put(client, 4);
    put_guid(IPID);
    put(public_refs, 4);
    put(private_refs, 4);
    done(what, put_answer(answer));
}

/* Pings with an object in a new set; the set. */
static uint64_t make_set(uint64_t oid) {
    rimonakh_pinged pinged = rimonakh_complex_ping(TABLE, 0, 1, &oid, 1, NULL, 0);
    const uint64_t results[] = {pinged.set, pinged.backoff};
    uint8_t adds[8];
    rimonakh_put(adds, oid, 8);
    put_call(11, 10);
    put(0, 8);
    put(1, 2);
    put_rest(adds, sizeof adds, pinged.answer, results, 2, "", 0);
    step("client: pings with the object in a new set", pinged.answer);
    printf(", set %" PRIu64 ", backoff %u\n", pinged.set, (unsigned)pinged.backoff);
    return pinged.set;
}

static void ping(uint64_t set) {
    uint32_t answer = rimonakh_simple_ping(TABLE, set);
    put_call(10, 8);
    put(set, 8);
    done("client: pings its set", put_answer(answer));
}

/* A client reads the reference, goes where it leads, takes references of its own and pings. Answers its ping set. */
static uint64_t take_up(const uint8_t *reference, size_t length) {
    uint8_t list[RIMONAKH_LONGEST_LIST];
    rimonakh_read_reference read = rimonakh_reference_read(reference, length);
    rimonakh_block block = read.reference.block;
    rimonakh_resolved resolved;
    step("client: reads the reference", read.answer);
    printf(", OXID %#" PRIx64 ", OID %#" PRIx64 ", %" PRIu32 " public references, %s\n", block.oxid, block.oid,
           block.public_refs, block.flags & RIMONAKH_NO_PING ? "not pinged" : "pinged");
    next_stop(reference, length);
    resolved = resolve(block.oxid, list);
    printf(", %zu bytes, ", resolved.length);
    print_address(list, resolved.length);
    printf("\n");
    resolve_udp(block.oxid);
    add("client: takes 2 public and 1 private references more", 0, 2, 1);
    return make_set(block.oid);
}

/* The box is swapped: its snapshot is loaded into the other one, which then serves. Answers the clock from which that one goes on by the
 * seconds that pass there: the snapshot's, not its own. */
static uint64_t swap_box(void) {
    static uint8_t snapshot[RIMONAKH_LONGEST_SNAPSHOT];
    rimonakh_written written = rimonakh_write_snapshot(TABLE, snapshot, sizeof snapshot);
    const uint64_t length = written.length;
    uint32_t loaded;
    put_call(18, 8);
    put(sizeof snapshot, 8);
    put_rest("", 0, written.answer, &length, 1, snapshot, written.length);
    step("server: writes a snapshot of its table at noon", written.answer);
    printf(", %zu bytes\n", written.length);
    box = &boxes[1];
    loaded = rimonakh_load_snapshot(TABLE, snapshot, written.length);
    put_call(19, 0);
    put_rest(snapshot, written.length, loaded, NULL, 0, "", 0);
    done("server: loads it into another box, which takes over", loaded);
    return rimonakh_snapshot_clock(snapshot);
}

/* The clock runs for two minutes. */
static void two_minutes(uint64_t *time) {
    rimonakh_counts went = rimonakh_clock(TABLE, *time += 120);
    put_call(12, 8);
    put(*time, 8);
    put_counts(went);
    step("clock: two minutes later", went.answer);
    printf(", %zu objects, %zu interfaces and %zu sets went\n", went.objects, went.interfaces, went.sets);
}

static void census(void) {
    rimonakh_counts live = rimonakh_census(TABLE);
    put_call(15, 0);
    put_counts(live);
    step("server: census", live.answer);
    printf(", %zu exporters, %zu objects, %zu interfaces, %zu sets\n", live.exporters, live.objects, live.interfaces,
           live.sets);
}

static void give_back(void) {
    rimonakh_released released = rimonakh_release(TABLE, 0, RIMONAKH_GUID(IPID), 7, 1);
    const uint64_t results[] = {released.public_refs, released.private_refs, released.interfaces, released.objects};
    put_call(6, 28);
    put(0, 4);
    put_guid(IPID);
    put(7, 4);
    put(1, 4);
    put_rest("", 0, released.answer, results, 4, "", 0);
    step("client: gives 7 public and 1 private references back", released.answer);
    printf(", took %" PRIu32 " and %" PRIu32 ", %s, %s\n", released.public_refs, released.private_refs,
           released.interfaces ? "the interface went" : "no interface went",
           released.objects ? "the object went" : "no object went");
}

static void count_members(uint64_t set) {
    rimonakh_member_count members = rimonakh_members(TABLE, set);
    const uint64_t count = members.count;
    put_call(16, 8);
    put(set, 8);
    put_rest("", 0, members.answer, &count, 1, "", 0);
    step("client: counts the members of its set", members.answer);
    printf(", %zu\n", members.count);
}

static void drop_client(uint32_t client) {
    uint32_t answer = rimonakh_drop_client(TABLE, client);
    put_call(7, 4);
    put(client, 4);
    done("server: drops the private references of client 1", put_answer(answer));
}

static void open_table(uint64_t time, const uint8_t *list, size_t list_len) {
    uint32_t answer = rimonakh_reset(TABLE, time);
    put_call(0, 8);
    put(time, 8);
    done("server: resets its table at eight minutes to noon", put_answer(answer));
    answer = rimonakh_enter_exporter(TABLE, OXID, RIMONAKH_GUID(UNKNOWN), list, list_len);
    put_call(1, 24);
    put(OXID, 8);
    put_guid(UNKNOWN);
    put_rest(list, list_len, answer, NULL, 0, "", 0);
    done("server: registers as exporter", answer);
}

static void leave(void) {
    uint32_t answer = rimonakh_remove_exporter(TABLE, OXID);
    put_call(2, 8);
    put(OXID, 8);
    done("server: leaves", put_answer(answer));
}

/* Support replays the day in a table of its own. */
static void replay(void) {
    static rimonakh_table other;
    rimonakh_outcome outcome = rimonakh_replay(RIMONAKH_TABLE(&other), recording, recorded);
    rimonakh_tally tally = outcome.tally;
    step("support: replays the day", outcome.answer);
    if (outcome.differs == 0)
        printf(", agrees");
    else
        printf(", record %" PRIu32 " differs", outcome.differs);
    printf(", granted %" PRIu64 ", taken %" PRIu64 ", run down %" PRIu64 "\n", tally.granted, tally.taken, tally.rundown);
}

static int save(const char *name) {
    FILE *file = fopen(name, "wb");
    size_t written = file == NULL ? 0 : fwrite(recording, 1, recorded, file);
    return file == NULL || fclose(file) != 0 || written != recorded;
}

int main(int argc, char **argv) {
    uint8_t list[RIMONAKH_LONGEST_LIST];
    uint8_t reference[1024];
    uint64_t time = 12 * 3600 - 4 * 120; /* seconds of the day here; of a monotonic clock in a gateway */
    size_t list_len = tcp_list("10.1.4.20[49500]", list);
    size_t length;
    rimonakh_resolved resolved;
    uint64_t set;

    printf("     0 done, 4 the server has left, 6 the tank level group has ended, 11 the client was silent too long and begins anew\n");
    open_table(time, list, list_len);
    length = serve(reference, sizeof reference);
    set = take_up(reference, length);
    for (int i = 0; i < 4; i++) {
        two_minutes(&time);
        ping(set);
    }
    time = swap_box();
    ping(set);
    add("client 1: takes 1 private reference", 1, 0, 1);
    give_back();
    count_members(set);
    drop_client(1);
    count_members(set);
    census();

    printf("     the next client falls silent\n");
    length = serve(reference, sizeof reference);
    set = take_up(reference, length);
    for (int i = 0; i < 3; i++)
        two_minutes(&time);
    give_back();
    ping(set);
    census();

    leave();
    resolved = resolve(OXID, list);
    printf(", code %" PRIu32 " on the wire\n", rimonakh_wire_code(resolved.answer));
    next_stop(reference, length);
    replay();
    return argc == 2 ? save(argv[1]) : 0;
}
