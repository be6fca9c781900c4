/* Tries the conveniences of rimonakh_more.h, as C and as C++. */
#include "rimonakh_more.h"

#include <stdio.h>
#include <string.h>

static int failed;

static void expect(int line, uint64_t got, uint64_t wanted) {
    if (got != wanted) {
        printf("line %d: %llu, not %llu\n", line, (unsigned long long)got, (unsigned long long)wanted);
        failed = 1;
    }
}
#define IS(got, wanted) expect(__LINE__, (uint64_t)(got), (uint64_t)(wanted))

static void guids(void) {
    static const char *broken[] = {"", "{", "{00000131-0203-0405-c000-000000000046", "00000131-0203-0405-c000-000000000046}",
                                   "{00000131-0203-0405-c000-000000000046} ", "{00000131-0203-0405-c000-00000000004}",
                                   "{00000131-0203-0405-c000-00000000004g}", "{0000013102030405c000000000000046}"};
    rimonakh_guid guid = {7, 8}, same;
    uint8_t bytes[16];
    char text[39];
    for (size_t i = 0; i < sizeof broken / sizeof *broken; i++)
        IS(rimonakh_guid_from_text(broken[i], &guid), false);
    IS(guid.low, 7);
    IS(rimonakh_guid_from_text("{00000131-0203-0405-C000-000000000046}", &guid), true);
    IS(guid.low, 0x0405020300000131);
    IS(guid.high, 0x46000000000000C0);
    rimonakh_guid_to_text(guid, text);
    IS(strcmp(text, "{00000131-0203-0405-c000-000000000046}"), 0);
    text[37] = '\0';
    IS(rimonakh_guid_from_text(text + 1, &same), true);
    IS(rimonakh_guid_equal(guid, same), true);
    rimonakh_guid_to_bytes(guid, bytes);
    IS(bytes[0], 0x31);
    IS(bytes[8], 0xC0);
    IS(bytes[15], 0x46);
    IS(rimonakh_guid_equal(rimonakh_guid_from_bytes(bytes), guid), true);
    same.high++;
    IS(rimonakh_guid_equal(guid, same), false);
}

static void texts(void) {
    IS(strcmp(rimonakh_answer_text(RIMONAKH_DONE), "done"), 0);
    IS(strcmp(rimonakh_answer_text(17), "no answer of this library"), 0);
    IS(strcmp(rimonakh_answer_text(25), "no answer of this library"), 0);
    IS(strcmp(rimonakh_answer_text(RIMONAKH_NO_SET), "no such live ping set, or set 0 in a simple ping"), 0);
}

static void lists(void) {
    static const uint8_t list[] = {8, 0, 4, 0, 7, 0, 'a', 0, 0, 0, 0, 0, 10, 0, 9, 0, 0, 0, 0, 0};
    uint16_t some[3], few[3];
    rimonakh_words strings = {some, 3, 0, false}, security = {few, 3, 0, false};
    uint8_t buffer[64];
    char text[8];
    rimonakh_written w;
    rimonakh_cursor start;
    rimonakh_step step;
    IS(rimonakh_write_list(NULL, NULL, buffer, sizeof buffer).length, 8);
    rimonakh_put_string_binding(&strings, 7, "a");
    rimonakh_put_security_binding(&security, 10, 9, "");
    w = rimonakh_write_list(&strings, &security, buffer, sizeof buffer);
    IS(w.answer, 0);
    IS(w.length, sizeof list);
    IS(memcmp(buffer, list, sizeof list), 0);
    rimonakh_binding_text(buffer, rimonakh_list_string_binding(buffer, w.length, 0), 1, text, sizeof text);
    IS(strcmp(text, "a"), 0);
    rimonakh_binding_text(buffer, rimonakh_list_string_binding(buffer, w.length, 0), 1, text, 1);
    IS(text[0], 0);
    rimonakh_binding_text(buffer, rimonakh_list_string_binding(buffer, w.length, 1), 1, text, sizeof text);
    IS(text[0], 0); /* there is no such binding */
    start = rimonakh_list_strings(buffer, w.length);
    step = rimonakh_list_next_string(buffer, w.length, start.at, start.left);
    rimonakh_binding_text(buffer, rimonakh_step_place(step), 1, text, sizeof text);
    IS(strcmp(text, "a"), 0);
    step = rimonakh_list_next_string(buffer, w.length, step.to, step.left);
    IS(rimonakh_step_place(step).answer, RIMONAKH_NO_BINDING);
    rimonakh_put_word(&strings, 7);
    IS(strings.full, true);
    IS(strings.count, 3);
    IS(rimonakh_write_list(&strings, &security, buffer, sizeof buffer).answer, RIMONAKH_NO_ROOM);
    IS(rimonakh_write_list(&security, &strings, buffer, sizeof buffer).answer, RIMONAKH_NO_ROOM);
}

static void count_exporter(void *with, const rimonakh_exporter_row *row) {
    size_t *seen = (size_t *)with;
    seen[0] += row->oxid == 0x51 && row->unknown.high == 0x62 && row->list_len == 4 && row->list[0] == 0;
}

static void count_object(void *with, const rimonakh_object_row *row) {
    size_t *seen = (size_t *)with;
    seen[1] += row->oid == 0x41 && row->oxid == 0x51 && !row->no_ping && row->heard == 1000;
}

static void count_interface(void *with, const rimonakh_interface_row *row) {
    size_t *seen = (size_t *)with;
    seen[2] += row->ipid.low == 0x71 && row->iid.high == 0x12 && row->oid == 0x41 && row->public_refs == 7 &&
               row->private_refs[2] == 0 && row->private_refs[3] == 2;
}

static void count_set(void *with, const rimonakh_set_row *row) {
    size_t *seen = (size_t *)with;
    seen[3] += row->number == 1 && row->sequence == 9 && row->pinged == 1000 && row->count == 1 &&
               rimonakh_get(row->members, 8) == 0x41;
}

static void rows(void) {
    static rimonakh_table table;
    static uint8_t snapshot[RIMONAKH_LONGEST_SNAPSHOT];
    const uint8_t none[4] = {0};
    const rimonakh_guid ipid = {0x71, 0x72};
    const uint64_t oid = 0x41;
    uint8_t item[RIMONAKH_ITEM_SIZE], result;
    size_t seen[4] = {0}, n;
    rimonakh_rows see = {seen, count_exporter, count_object, count_interface, count_set};
    const rimonakh_rows nothing = {NULL, NULL, NULL, NULL, NULL};
    IS(rimonakh_reset(RIMONAKH_TABLE(&table), 1000), 0);
    IS(rimonakh_enter_exporter(RIMONAKH_TABLE(&table), 0x51, 0x61, 0x62, none, sizeof none), 0);
    IS(rimonakh_enter_object(RIMONAKH_TABLE(&table), oid, 0x51, RIMONAKH_GUID(ipid), 0x11, 0x12, 5, false), 0);
    rimonakh_put_item(item, ipid, 2, 2);
    IS(rimonakh_add_list(RIMONAKH_TABLE(&table), 3, item, sizeof item, &result, 1), 0);
    IS(result, 0);
    IS(rimonakh_complex_ping(RIMONAKH_TABLE(&table), 0, 9, &oid, 1, NULL, 0).set, 1);
    n = rimonakh_write_snapshot(RIMONAKH_TABLE(&table), snapshot, sizeof snapshot).length;
    IS(rimonakh_snapshot_clock(snapshot), 1000);
    IS(rimonakh_each_row(snapshot, n, &see), true);
    for (size_t kind = 0; kind < 4; kind++)
        IS(seen[kind], 1);
    IS(rimonakh_each_row(snapshot, n, &nothing), true);
    for (size_t cut = 0; cut < n; cut++)
        IS(rimonakh_each_row(snapshot, cut, &nothing), false);
    IS(rimonakh_each_row(snapshot, n - 1, &see), false);
    IS(seen[2], 2);
    IS(seen[3], 1); /* a row that is cut is not seen */
}

int main(void) {
    guids();
    texts();
    lists();
    rows();
    return failed;
}
