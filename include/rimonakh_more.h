/*
 * Conveniences over rimonakh.h: static inline, nothing to link, nothing allocated. They have no rule of their own: what they make is
 * judged by the functions of rimonakh.h. C99 and C++11.
 */
#ifndef RIMONAKH_MORE_H
#define RIMONAKH_MORE_H

#include "rimonakh.h"

/* ---- a table and a GUID as one argument */

typedef struct {
    uint64_t words[RIMONAKH_WORDS];
    uint8_t store[RIMONAKH_BYTES];
} rimonakh_table;

/* The four arguments with which every call on a table begins, of a pointer to one. */
#define RIMONAKH_TABLE(table) (table)->words, RIMONAKH_WORDS, (table)->store, RIMONAKH_BYTES

/* The two arguments of a GUID. */
#define RIMONAKH_GUID(guid) (guid).low, (guid).high

/* ---- answers */

/* The words of an answer number. */
static inline const char *rimonakh_answer_text(uint32_t answer) {
    switch (answer) {
    case RIMONAKH_DONE: return "done";
    case RIMONAKH_UNSOUND: return "a lent table has the wrong length or is not sound";
    case RIMONAKH_CLOCK_BACK: return "the new clock is below the table's clock";
    case RIMONAKH_BAD_IDENTIFIER: return "an OXID, OID or IPID to be entered is zero or already live";
    case RIMONAKH_NO_EXPORTER: return "no such live exporter";
    case RIMONAKH_NO_OBJECT: return "no such live object";
    case RIMONAKH_NO_INTERFACE: return "no such live interface";
    case RIMONAKH_NO_REFERENCES: return "an entry with zero references";
    case RIMONAKH_COUNT_OVERFLOW: return "a count would pass 4,294,967,295";
    case RIMONAKH_NO_PLACE: return "no free place of a kind that is needed, or no room in the store for a binding list";
    case RIMONAKH_TOO_MANY: return "a list of more than 65,535 identifiers, items or protocols, or more than 16,384 records";
    case RIMONAKH_NO_SET: return "no such live ping set, or set 0 in a simple ping";
    case RIMONAKH_STALE: return "a stale sequence number";
    case RIMONAKH_SHORT: return "the bytes end before a field does";
    case RIMONAKH_LAYOUT: return "a layout rule is broken, or a next stop is asked of a custom reference";
    case RIMONAKH_NO_ROOM: return "the output buffer is too short";
    case RIMONAKH_BAD_VERSION: return "a call's header has a version that is not understood";
    case RIMONAKH_SETS_USED_UP: return "the set numbers are used up";
    case RIMONAKH_LONG_LIST: return "a binding list of more than 2,048 bytes";
    case RIMONAKH_NO_CLIENT: return "the client is none of 0 to 7";
    case RIMONAKH_TOO_DEEP: return "references nested deeper than 8";
    case RIMONAKH_NIL_IDENTIFIER: return "the OXID, OID or IPID of a reference is zero";
    case RIMONAKH_NO_SNAPSHOT: return "the bytes are not the snapshot of any sound table";
    case RIMONAKH_NO_BINDING: return "no binding, extension, element or property of this number";
    default: return "no answer of this library";
    }
}

/* ---- little-endian numbers */

/* The number in bytes, of 1 to 8. */
static inline uint64_t rimonakh_get(const uint8_t *bytes, int width) {
    uint64_t number = 0;
    while (width-- > 0)
        number = number << 8 | bytes[width];
    return number;
}

/* Puts a number of 1 to 8 bytes; answers where the next one goes. */
static inline uint8_t *rimonakh_put(uint8_t *bytes, uint64_t number, int width) {
    for (; width > 0; width--, number >>= 8)
        *bytes++ = (uint8_t)(number & 0xFF);
    return bytes;
}

/* ---- GUIDs */

static inline rimonakh_guid rimonakh_guid_from_bytes(const uint8_t bytes[16]) {
    rimonakh_guid guid;
    guid.low = rimonakh_get(bytes, 8);
    guid.high = rimonakh_get(bytes + 8, 8);
    return guid;
}

static inline void rimonakh_guid_to_bytes(rimonakh_guid guid, uint8_t bytes[16]) {
    rimonakh_put(rimonakh_put(bytes, guid.low, 8), guid.high, 8);
}

static inline bool rimonakh_guid_equal(rimonakh_guid a, rimonakh_guid b) {
    return a.low == b.low && a.high == b.high;
}

/* Which byte of a GUID the next two digits of its text are; a dash stands before numbers 4, 6, 8 and 10. */
static inline int rimonakh_guid_place(int i) {
    return i < 4 ? 3 - i : i < 6 ? 9 - i : i < 8 ? 13 - i : i;
}

static inline bool rimonakh_guid_dash(int i) {
    return i == 4 || i == 6 || i == 8 || i == 10;
}

/* {00112233-4455-6677-8899-aabbccddeeff}, 38 characters and a zero. */
static inline void rimonakh_guid_to_text(rimonakh_guid guid, char text[39]) {
    const char *digits = "0123456789abcdef";
    uint8_t bytes[16];
    int i;
    rimonakh_guid_to_bytes(guid, bytes);
    *text++ = '{';
    for (i = 0; i < 16; i++) {
        const uint8_t byte = bytes[rimonakh_guid_place(i)];
        if (rimonakh_guid_dash(i))
            *text++ = '-';
        *text++ = digits[byte >> 4];
        *text++ = digits[byte & 15];
    }
    *text++ = '}';
    *text = '\0';
}

/* The value of a hexadecimal digit, or -1. */
static inline int rimonakh_digit(char c) {
    return c >= '0' && c <= '9' ? c - '0' : c >= 'a' && c <= 'f' ? c - 'a' + 10 : c >= 'A' && c <= 'F' ? c - 'A' + 10 : -1;
}

/* From that text, with or without braces. False, and the GUID is left, where it is none. */
static inline bool rimonakh_guid_from_text(const char *text, rimonakh_guid *guid) {
    uint8_t bytes[16];
    const bool braces = *text == '{';
    int i;
    text += braces;
    for (i = 0; i < 16; i++) {
        int high, low;
        if (rimonakh_guid_dash(i) && *text++ != '-')
            return false;
        if ((high = rimonakh_digit(text[0])) < 0 || (low = rimonakh_digit(text[1])) < 0)
            return false;
        bytes[rimonakh_guid_place(i)] = (uint8_t)(16 * high + low);
        text += 2;
    }
    if (braces && *text++ != '}')
        return false;
    if (*text != '\0')
        return false;
    *guid = rimonakh_guid_from_bytes(bytes);
    return true;
}

/* ---- references, items, binding lists */

/* rimonakh_reference_write from the struct that rimonakh_reference_read answers. */
static inline rimonakh_written rimonakh_write_reference(const rimonakh_reference *r, const uint8_t *tail, size_t tail_len,
                                                        const uint8_t *content, size_t content_len, uint8_t *buffer,
                                                        size_t buffer_len) {
    return rimonakh_reference_write(r->flags, RIMONAKH_GUID(r->iid), r->block.flags, r->block.public_refs, r->block.oxid,
                                    r->block.oid, RIMONAKH_GUID(r->block.ipid), RIMONAKH_GUID(r->clsid), r->extension,
                                    r->size, RIMONAKH_GUID(r->element), tail, tail_len, content, content_len, buffer,
                                    buffer_len);
}

/* Puts an item of a list of adds or releases. */
static inline void rimonakh_put_item(uint8_t item[RIMONAKH_ITEM_SIZE], rimonakh_guid ipid, uint32_t public_refs,
                                     uint32_t private_refs) {
    rimonakh_guid_to_bytes(ipid, item);
    rimonakh_put(rimonakh_put(item + 16, public_refs, 4), private_refs, 4);
}

/* Words of bindings, put one after the other into an array of the caller's: {array, its length, 0, false}. */
typedef struct {
    uint16_t *words;
    size_t room;
    size_t count;
    bool full; /* whether a word found no room */
} rimonakh_words;

static inline void rimonakh_put_word(rimonakh_words *to, uint16_t word) {
    if (to->count < to->room)
        to->words[to->count++] = word;
    else
        to->full = true;
}

/* Text in ASCII, and a zero word. */
static inline void rimonakh_put_text(rimonakh_words *to, const char *text) {
    while (*text != '\0')
        rimonakh_put_word(to, (unsigned char)*text++);
    rimonakh_put_word(to, 0);
}

static inline void rimonakh_put_string_binding(rimonakh_words *to, uint16_t tower, const char *address) {
    rimonakh_put_word(to, tower);
    rimonakh_put_text(to, address);
}

static inline void rimonakh_put_security_binding(rimonakh_words *to, uint16_t service, uint16_t second, const char *name) {
    rimonakh_put_word(to, service);
    rimonakh_put_word(to, second);
    rimonakh_put_text(to, name);
}

/* rimonakh_list_write of such words, NULL for none; 15 also where words found no room. */
static inline rimonakh_written rimonakh_write_list(const rimonakh_words *strings, const rimonakh_words *security, uint8_t *buffer,
                                                   size_t buffer_len) {
    rimonakh_written refused = {RIMONAKH_NO_ROOM, 0};
    if ((strings && strings->full) || (security && security->full))
        return refused;
    return rimonakh_list_write(strings ? strings->words : NULL, strings ? strings->count : 0, security ? security->words : NULL,
                               security ? security->count : 0, buffer, buffer_len);
}

/* The text of a binding at a place of bytes, after its first words (1 of a string binding, 2 of a security binding), in ASCII with '?'
 * for every other unit; as much as room holds, with a zero at its end. */
static inline void rimonakh_binding_text(const uint8_t *bytes, rimonakh_place binding, size_t first_words, char *text, size_t room) {
    size_t i = binding.from + 2 * first_words;
    for (; i + 2 < binding.to && room > 1; i += 2, room--)
        *text++ = (char)(bytes[i + 1] == 0 && bytes[i] >= 0x20 && bytes[i] < 0x7F ? bytes[i] : '?');
    if (room > 0)
        *text = '\0';
}

/* The place of a binding that a step of a walk in one pass answers. */
static inline rimonakh_place rimonakh_step_place(rimonakh_step step) {
    rimonakh_place place = {step.answer, step.from, step.to};
    return place;
}

/* ---- the rows of a snapshot: what a table holds */

typedef struct {
    uint64_t oxid;
    rimonakh_guid unknown;
    const uint8_t *list; /* in the snapshot */
    size_t list_len;
} rimonakh_exporter_row;

typedef struct {
    uint64_t oid;
    uint64_t oxid;
    bool no_ping;
    uint64_t heard;
} rimonakh_object_row;

typedef struct {
    rimonakh_guid ipid;
    rimonakh_guid iid;
    uint64_t oid;
    uint32_t public_refs;
    uint32_t private_refs[RIMONAKH_CLIENTS];
} rimonakh_interface_row;

typedef struct {
    uint64_t number;
    uint16_t sequence;
    uint64_t pinged;
    const uint8_t *members; /* in the snapshot: OIDs of eight bytes */
    size_t count;
} rimonakh_set_row;

/* What is done with the rows of each kind, in their order, and what it is given; any may be NULL. */
typedef struct {
    void *with;
    void (*exporter)(void *with, const rimonakh_exporter_row *row);
    void (*object)(void *with, const rimonakh_object_row *row);
    void (*interface_)(void *with, const rimonakh_interface_row *row);
    void (*set)(void *with, const rimonakh_set_row *row);
} rimonakh_rows;

/* The clock of a snapshot, of 10 bytes or more. */
static inline uint64_t rimonakh_snapshot_clock(const uint8_t *snapshot) {
    return rimonakh_get(snapshot + 2, 8);
}

/* Bytes that are taken from the front. */
typedef struct {
    const uint8_t *at;
    size_t left;
    bool ended; /* whether fewer were left than were asked for */
} rimonakh_bytes;

/* The next n bytes; NULL where fewer are left. */
static inline const uint8_t *rimonakh_take(rimonakh_bytes *from, size_t n) {
    const uint8_t *taken = from->at;
    if (from->ended || from->left < n) {
        from->ended = true;
        return NULL;
    }
    from->at += n;
    from->left -= n;
    return taken;
}

/* A number, 0 where the bytes end. */
static inline uint64_t rimonakh_take_number(rimonakh_bytes *from, int width) {
    const uint8_t *bytes = rimonakh_take(from, (size_t)width);
    return bytes ? rimonakh_get(bytes, width) : 0;
}

static inline rimonakh_guid rimonakh_take_guid(rimonakh_bytes *from) {
    rimonakh_guid guid;
    guid.low = rimonakh_take_number(from, 8);
    guid.high = rimonakh_take_number(from, 8);
    return guid;
}

static inline rimonakh_exporter_row rimonakh_take_exporter(rimonakh_bytes *from) {
    rimonakh_exporter_row row;
    row.oxid = rimonakh_take_number(from, 8);
    row.unknown = rimonakh_take_guid(from);
    row.list_len = (size_t)rimonakh_take_number(from, 2);
    row.list = rimonakh_take(from, row.list_len);
    return row;
}

static inline rimonakh_object_row rimonakh_take_object(rimonakh_bytes *from) {
    rimonakh_object_row row;
    row.oid = rimonakh_take_number(from, 8);
    row.oxid = rimonakh_take_number(from, 8);
    row.no_ping = rimonakh_take_number(from, 1) != 0;
    row.heard = rimonakh_take_number(from, 8);
    return row;
}

static inline rimonakh_interface_row rimonakh_take_interface(rimonakh_bytes *from) {
    rimonakh_interface_row row;
    int client;
    row.ipid = rimonakh_take_guid(from);
    row.iid = rimonakh_take_guid(from);
    row.oid = rimonakh_take_number(from, 8);
    row.public_refs = (uint32_t)rimonakh_take_number(from, 4);
    for (client = 0; client < RIMONAKH_CLIENTS; client++)
        row.private_refs[client] = (uint32_t)rimonakh_take_number(from, 4);
    return row;
}

static inline rimonakh_set_row rimonakh_take_set(rimonakh_bytes *from) {
    rimonakh_set_row row;
    row.number = rimonakh_take_number(from, 8);
    row.sequence = (uint16_t)rimonakh_take_number(from, 2);
    row.pinged = rimonakh_take_number(from, 8);
    row.count = (size_t)rimonakh_take_number(from, 2);
    row.members = rimonakh_take(from, 8 * row.count);
    return row;
}

#define RIMONAKH_EACH(kind)                                                                                                      \
    for (n = rimonakh_take_number(&from, 2); n > 0 && !from.ended; n--) {                                                        \
        const rimonakh_##kind##_row row = rimonakh_take_##kind(&from);                                                           \
        if (!from.ended && see_##kind)                                                                                           \
            see_##kind(see->with, &row);                                                                                         \
    }

/* Sees every row of a snapshot that the library wrote or loaded. False where the bytes end before the last row does; whether they are a
 * snapshot is for rimonakh_load_snapshot to say. */
static inline bool rimonakh_each_row(const uint8_t *snapshot, size_t snapshot_len, const rimonakh_rows *see) {
    void (*see_exporter)(void *, const rimonakh_exporter_row *) = see->exporter;
    void (*see_object)(void *, const rimonakh_object_row *) = see->object;
    void (*see_interface)(void *, const rimonakh_interface_row *) = see->interface_;
    void (*see_set)(void *, const rimonakh_set_row *) = see->set;
    rimonakh_bytes from = {snapshot, snapshot_len, false};
    uint64_t n;
    rimonakh_take(&from, 18);
    RIMONAKH_EACH(exporter)
    RIMONAKH_EACH(object)
    RIMONAKH_EACH(interface)
    RIMONAKH_EACH(set)
    return !from.ended;
}

#undef RIMONAKH_EACH

#endif
