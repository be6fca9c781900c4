/*
 * The status of a box in text: what its table holds, read off its snapshot, and what a refusal says. Objects and sets that were not heard
 * for two of a client's ping periods are marked: they end soon.
 *
 *     cc -Iinclude examples/status.c target/librimonakh.a -o status && ./status
 */
#include "rimonakh_more.h"

#include <inttypes.h>
#include <stdio.h>

static void print_exporter(void *with, const rimonakh_exporter_row *row) {
    const rimonakh_cursor start = rimonakh_list_strings(row->list, row->list_len);
    rimonakh_step step = rimonakh_list_next_string(row->list, row->list_len, start.at, start.left);
    (void)with;
    printf("exporter %#" PRIx64 " at", row->oxid);
    for (; step.answer == RIMONAKH_DONE; step = rimonakh_list_next_string(row->list, row->list_len, step.to, step.left)) {
        char address[64];
        rimonakh_binding_text(row->list, rimonakh_step_place(step), 1, address, sizeof address);
        printf(" %s", address);
    }
    printf("\n");
}

/* The seconds since something was heard. */
static void print_silence(const char *what, uint64_t silent) {
    printf("%s %" PRIu64 " seconds ago%s\n", what, silent, silent >= 240 ? ", ends soon" : "");
}

static void print_object(void *with, const rimonakh_object_row *row) {
    const uint64_t *clock = (const uint64_t *)with;
    printf("object %#" PRIx64 " of exporter %#" PRIx64 ", ", row->oid, row->oxid);
    if (row->no_ping)
        printf("not pinged\n");
    else
        print_silence("heard", *clock - row->heard);
}

static void print_interface(void *with, const rimonakh_interface_row *row) {
    char ipid[39];
    int client;
    (void)with;
    rimonakh_guid_to_text(row->ipid, ipid);
    printf("interface %s of object %#" PRIx64 ", public references %" PRIu32, ipid, row->oid, row->public_refs);
    for (client = 0; client < RIMONAKH_CLIENTS; client++)
        if (row->private_refs[client] != 0)
            printf(", of client %d %" PRIu32, client, row->private_refs[client]);
    printf("\n");
}

static void print_set(void *with, const rimonakh_set_row *row) {
    const uint64_t *clock = (const uint64_t *)with;
    printf("set %" PRIu64 " with %zu members, ", row->number, row->count);
    print_silence("pinged", *clock - row->pinged);
}

/* Prints what a table holds. */
static void print_status(const rimonakh_table *table) {
    static uint8_t snapshot[RIMONAKH_LONGEST_SNAPSHOT];
    const rimonakh_written written = rimonakh_write_snapshot(RIMONAKH_TABLE(table), snapshot, sizeof snapshot);
    uint64_t clock;
    rimonakh_rows rows = {NULL, print_exporter, print_object, print_interface, print_set};
    if (written.answer != RIMONAKH_DONE) {
        printf("no status: %s (%" PRIu32 ")\n", rimonakh_answer_text(written.answer), written.answer);
        return;
    }
    clock = rimonakh_snapshot_clock(snapshot);
    rows.with = &clock;
    printf("clock %" PRIu64 "\n", clock);
    rimonakh_each_row(snapshot, written.length, &rows);
}

/* A step of the box; a refusal is printed in words. */
static void done(const char *what, uint32_t answer) {
    if (answer != RIMONAKH_DONE)
        printf("%s: %s (%" PRIu32 ")\n", what, rimonakh_answer_text(answer), answer);
}

/* A box with a server, two objects, and a client that fell silent; another takes references by a list. */
static void fill(rimonakh_table *table) {
    const uint64_t oid = 0x7E0A;
    uint8_t list[RIMONAKH_LONGEST_LIST], items[2 * RIMONAKH_ITEM_SIZE], results[2];
    uint16_t words[64], services[64];
    rimonakh_words strings = {words, 64, 0, false}, security = {services, 64, 0, false};
    rimonakh_guid unknown = {1, 1}, level = {2, 2}, alarm = {3, 3}, group = {0, 0};
    rimonakh_put_string_binding(&strings, 7, "10.1.4.20[49500]");
    rimonakh_put_string_binding(&strings, 8, "10.1.4.20[49501]");
    rimonakh_put_security_binding(&security, 10, 0xFFFF, "RPCSS/plant-gw01");
    rimonakh_guid_from_text("{39c13a54-011e-11d0-9675-0020afd8adb3}", &group);
    done("reset", rimonakh_reset(RIMONAKH_TABLE(table), 1000));
    done("exporter", rimonakh_enter_exporter(RIMONAKH_TABLE(table), 0x1101, RIMONAKH_GUID(unknown), list,
                                             rimonakh_write_list(&strings, &security, list, sizeof list).length));
    done("level", rimonakh_enter_object(RIMONAKH_TABLE(table), oid, 0x1101, RIMONAKH_GUID(level), RIMONAKH_GUID(group), 5, false));
    done("alarm", rimonakh_enter_object(RIMONAKH_TABLE(table), 0x7E0B, 0x1101, RIMONAKH_GUID(alarm), RIMONAKH_GUID(group), 1, true));
    done("ping", rimonakh_complex_ping(RIMONAKH_TABLE(table), 0, 1, &oid, 1, NULL, 0).answer);
    rimonakh_put_item(items, level, 2, 1);
    rimonakh_put_item(items + RIMONAKH_ITEM_SIZE, group, 1, 0);
    done("adds", rimonakh_add_list(RIMONAKH_TABLE(table), 3, items, sizeof items, results, sizeof results));
    done("add of the first item", results[0]);
    done("add of the second item", results[1]);
    done("clock", rimonakh_clock(RIMONAKH_TABLE(table), 1250).answer);
    done("release by client 9", rimonakh_release(RIMONAKH_TABLE(table), 9, RIMONAKH_GUID(level), 1, 0).answer);
}

int main(void) {
    static rimonakh_table table;
    print_status(&table);
    fill(&table);
    print_status(&table);
    return 0;
}
