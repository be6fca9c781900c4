/*
 * Rimonakh: a proved DCOM object resolver. Object references (OBJREF), binding lists (DUALSTRINGARRAY), call headers
 * (ORPCTHIS, ORPCTHAT), and a table of exporters, objects, interfaces and ping sets.
 *
 * For x86-64 Linux, little-endian; C99 and C++11 or later. include/rimonakh_more.h has conveniences, docs/USING.md the longer text.
 *
 * Buffers. Every buffer is the caller's: the library allocates nothing, has no globals and keeps no pointer when a call returns. A
 * buffer is a pointer and its length, in this order. A pointer to const is only read.
 *
 * What the caller answers for, in the words of docs/PROOF.md. A pointer and a length given together are a buffer of that length;
 * the pointer is aligned for its type (8 bytes for the words of a table), and may be NULL where the length is 0. A bool, also in a
 * struct, is 0 or 1. Two buffers of one call do not overlap where one of them is written; they may be the same where both are only
 * read. While a call runs, no other thread, and no other process that shares the memory or the file that is mapped, changes a buffer
 * that is lent to it, or reads one that it writes. The stack suffices (see Stack).
 *
 * Tables. A table is an array of 8,192 words and a store of 8,192 bytes. Both are lent to every call, and a call that is lent
 * words and a store that are no sound table answers 1, save a reset, a load of a snapshot and a replay. Between calls the caller
 * may copy, save and restore them; what was saved is good for the same layout of the table only (RIMONAKH_TABLE_LAYOUT), and
 * between versions a box is swapped by a snapshot, which has one form. Calls on different tables need no lock. Two calls on one
 * table do not run at the same time, unless both take it as const. Only a call that takes the store without const changes it:
 * binding lists stand end to end in it, and move when an exporter before them is removed.
 *
 * Time. A table's clock is seconds that only rise: those of a monotonic clock, never the wall's, which is set. A reset and a load
 * set it, a replay as its records do; only rimonakh_clock moves it on, so the program calls it by itself, every few seconds:
 * without clock calls nothing ends. A pinged object, and a set, ends at the first clock call that is 360 seconds or more past the
 * last time it was heard: between 360 seconds and 360 plus the period of these calls. A time far ahead ends every pinged object and
 * every set and can't be taken back: any smaller time is answered 2 from then on. So bound a jump before you hand it in. After a
 * load the clock is the snapshot's: go on from it by the seconds that pass here, whatever this box's own clock says.
 *
 * GUIDs are two numbers: the little-endian numbers of the first and of the last eight of their sixteen bytes on the wire.
 *
 * Answers. Every call ends with an answer number: 0, or one of the refusals below. A refused call answers zero in every other
 * field and changes no word or byte of what it was lent. No number or byte that is handed in is wrong to hand in. The bytes between
 * the fields of an answer are not set, and may be anything of the stack: compare and pass on fields, not the struct's memory.
 *
 * Stack, at most, for any input: a replay 220 KiB, a load of a snapshot 150 KiB, a resolve by protocols 16 KiB, every other call on a
 * table 12 KiB, every other function 4 KiB. Frames are probed page by page: too small a stack ends the program at its guard page.
 */
#ifndef RIMONAKH_H
#define RIMONAKH_H

#include <stdbool.h>
#include <stddef.h>
#include <stdint.h>

#ifdef __cplusplus
extern "C" {
#endif

/* The version of this header; rimonakh_version() answers that of the archive, as the same number. */
#define RIMONAKH_VERSION_MAJOR 0
#define RIMONAKH_VERSION_MINOR 2
#define RIMONAKH_VERSION_PATCH 0
#define RIMONAKH_VERSION (RIMONAKH_VERSION_MAJOR * 65536 + RIMONAKH_VERSION_MINOR * 256 + RIMONAKH_VERSION_PATCH)

/* Which word of a table's array and which byte of its store holds what: a table that was saved by a version with another number is
 * answered 1, or is another table. It is swapped by its snapshot. */
#define RIMONAKH_TABLE_LAYOUT 3

enum {
    RIMONAKH_WORDS = 8192, /* the length of a table's array, in words */
    RIMONAKH_BYTES = 8192, /* the length of a table's store, in bytes: all binding lists together */
    RIMONAKH_EXPORTERS = 16, /* how much a table holds of each kind */
    RIMONAKH_OBJECTS = 128,
    RIMONAKH_INTERFACES = 256,
    RIMONAKH_SETS = 32,
    RIMONAKH_CLIENTS = 8, /* clients with private references: 0 to 7 */
    RIMONAKH_SILENCE = 360, /* seconds after which an unheard set or pinged object ends; a client pings every 120 */
    RIMONAKH_LONGEST_LIST = 2048, /* the longest binding list of an exporter, in bytes */
    RIMONAKH_LONGEST_SNAPSHOT = 64698, /* the longest snapshot of a table, in bytes */
    RIMONAKH_MOST_RECORDS = 16384, /* the most records of a recording that is replayed */
    RIMONAKH_MOST_LISTED = 65535, /* the most OIDs, items or protocols in one list */
    RIMONAKH_ITEM_SIZE = 24, /* the bytes of an item in a list of adds or releases */
    RIMONAKH_MOST_LEVELS = 8, /* references nested in references, the outermost among them */
    RIMONAKH_MOST_EXTENSIONS = 32, /* the most extensions of a call header */
    RIMONAKH_MOST_MINOR = 7 /* the highest minor version of a call header */
};

/* The bit of a block's flags that means no pinging. */
#define RIMONAKH_NO_PING UINT32_C(0x1000)

/* Answer numbers. 17 is no longer given: extensions are read.
 *
 * 1 comes of a table that was never reset, was saved with another layout, or is damaged. Load the last snapshot, else reset.
 * 23 is no checksum: bytes that were changed into the snapshot of another sound table are loaded. */
#define RIMONAKH_DONE UINT32_C(0)
#define RIMONAKH_UNSOUND UINT32_C(1) /* a lent table has the wrong length or is not sound */
#define RIMONAKH_CLOCK_BACK UINT32_C(2) /* the new clock is below the table's clock */
#define RIMONAKH_BAD_IDENTIFIER UINT32_C(3) /* an OXID, OID or IPID to be entered is zero or already live */
#define RIMONAKH_NO_EXPORTER UINT32_C(4) /* no such live exporter */
#define RIMONAKH_NO_OBJECT UINT32_C(5) /* no such live object */
#define RIMONAKH_NO_INTERFACE UINT32_C(6) /* no such live interface */
#define RIMONAKH_NO_REFERENCES UINT32_C(7) /* an entry with zero references */
#define RIMONAKH_COUNT_OVERFLOW UINT32_C(8) /* a count would pass 4,294,967,295 */
#define RIMONAKH_NO_PLACE UINT32_C(9) /* no free place of a kind that is needed, or no room in the store for a binding list */
#define RIMONAKH_TOO_MANY UINT32_C(10) /* a list of more than 65,535 identifiers, items or protocols, or more than 16,384 records */
#define RIMONAKH_NO_SET UINT32_C(11) /* no such live ping set, or set 0 in a simple ping */
#define RIMONAKH_STALE UINT32_C(12) /* a stale sequence number: (new - last) modulo 65,536 is 0 or above 32,767 */
#define RIMONAKH_SHORT UINT32_C(13) /* the bytes end before a field does */
#define RIMONAKH_LAYOUT UINT32_C(14) /* a layout rule is broken, or a next stop is asked of a custom reference */
#define RIMONAKH_NO_ROOM UINT32_C(15) /* the output buffer is too short */
#define RIMONAKH_BAD_VERSION UINT32_C(16) /* a call's header has a version that is not understood */
#define RIMONAKH_SETS_USED_UP UINT32_C(18) /* the set numbers are used up */
#define RIMONAKH_LONG_LIST UINT32_C(19) /* a binding list of more than 2,048 bytes */
#define RIMONAKH_NO_CLIENT UINT32_C(20) /* the client is none of 0 to 7 */
#define RIMONAKH_TOO_DEEP UINT32_C(21) /* references nested deeper than 8 */
#define RIMONAKH_NIL_IDENTIFIER UINT32_C(22) /* the OXID, OID or IPID of a reference is zero */
#define RIMONAKH_NO_SNAPSHOT UINT32_C(23) /* the bytes are not the snapshot of any sound table */
#define RIMONAKH_NO_BINDING UINT32_C(24) /* no binding, extension, element or property of this number */

/* The flags of a reference, which name its form. */
#define RIMONAKH_STANDARD UINT32_C(1)
#define RIMONAKH_HANDLER UINT32_C(2)
#define RIMONAKH_CUSTOM UINT32_C(4)
#define RIMONAKH_EXTENDED UINT32_C(8)

typedef struct {
    uint64_t low;
    uint64_t high;
} rimonakh_guid;

/* What a header says of its extensions: its pointer to their array, the array's pointer, and how many there are. A pointer is a
 * number of the sender's: 0 or not. */
typedef struct {
    uint32_t pointer;
    uint32_t array;
    uint32_t count;
} rimonakh_extensions;

/* An extension: its pointer, its id, and its data without padding, from byte `from` up to and not with byte `to`. */
typedef struct {
    uint32_t answer;
    uint32_t pointer;
    rimonakh_guid id;
    size_t from;
    size_t to;
} rimonakh_extension;

/* The header of a call. Its major version is 5. */
typedef struct {
    uint16_t minor;
    uint32_t flags;
    rimonakh_guid causality;
} rimonakh_orpc_this;

typedef struct {
    uint32_t answer;
    rimonakh_orpc_this header;
    rimonakh_extensions extensions;
    size_t length; /* of the header with its extensions */
} rimonakh_read_this;

/* The header of a reply. */
typedef struct {
    uint32_t flags;
} rimonakh_orpc_that;

typedef struct {
    uint32_t answer;
    rimonakh_orpc_that header;
    rimonakh_extensions extensions;
    size_t length; /* of the header with its extensions */
} rimonakh_read_that;

/* A part of a buffer that was lent: from byte `from` up to and not with byte `to`. */
typedef struct {
    uint32_t answer;
    size_t from;
    size_t to;
} rimonakh_place;

/* Where a walk stands: the byte where the next item begins, and how much is left. Plain numbers of the caller's; see "in one pass". */
typedef struct {
    uint32_t answer;
    size_t at;
    size_t left;
} rimonakh_cursor;

/* A binding, from byte `from` up to and not with byte `to`; the walk goes on at `to` with `left`. */
typedef struct {
    uint32_t answer;
    size_t from;
    size_t to;
    size_t left;
} rimonakh_step;

/* The same over extensions: the byte of the next one's pointer, that of the next one, and how many are left. */
typedef struct {
    uint32_t answer;
    size_t pointer;
    size_t at;
    size_t left;
} rimonakh_extension_cursor;

/* An extension, or its refusal; the walk goes on at `pointer` and `at` with `left`. */
typedef struct {
    rimonakh_extension extension;
    size_t pointer;
    size_t at;
    size_t left;
} rimonakh_extension_step;

/* The standard object block (STDOBJREF). */
typedef struct {
    uint32_t flags;
    uint32_t public_refs;
    uint64_t oxid;
    uint64_t oid;
    rimonakh_guid ipid;
} rimonakh_block;

/* The fixed fields of a reference. A field that its form does not have is zero. */
typedef struct {
    uint32_t flags;
    rimonakh_guid iid;
    rimonakh_block block; /* standard, handler and extended */
    rimonakh_guid clsid; /* handler and custom */
    uint32_t extension; /* custom: the extension size, kept and not used */
    uint32_t size; /* custom: the size, kept and not used */
    rimonakh_guid element; /* extended: the identifier of its element */
} rimonakh_reference;

/* The fields of a context that are not fixed. Reserved, marshal flags and frozen are kept and not used. */
typedef struct {
    rimonakh_guid id;
    uint32_t reserved;
    uint32_t marshal;
    uint32_t count; /* of the properties */
    uint32_t frozen;
} rimonakh_context;

typedef struct {
    uint32_t answer;
    rimonakh_context context;
} rimonakh_read_context;

/* The fields of a context's property before its data. */
typedef struct {
    rimonakh_guid clsid;
    rimonakh_guid policy;
    uint32_t flags; /* 1 propagate, 2 expose, 4 envoy */
} rimonakh_property;

typedef struct {
    uint32_t answer;
    rimonakh_property property;
} rimonakh_read_property;

/* A property, its data from byte `from` up to and not with byte `to`; the walk goes on at `to` with `left`. */
typedef struct {
    uint32_t answer;
    rimonakh_property property;
    size_t from;
    size_t to;
    size_t left;
} rimonakh_property_step;

typedef struct {
    uint32_t answer;
    rimonakh_reference reference;
} rimonakh_read_reference;

/* The number of bytes written. */
typedef struct {
    uint32_t answer;
    size_t length;
} rimonakh_written;

/* Numbers of each kind: of live entries, or of those that went. */
typedef struct {
    uint32_t answer;
    size_t exporters;
    size_t objects;
    size_t interfaces;
    size_t sets;
} rimonakh_counts;

typedef struct {
    uint32_t answer;
    size_t count;
} rimonakh_member_count;

/* What a release took of each count, and how many interfaces and objects went: 0 or 1 of each. */
typedef struct {
    uint32_t answer;
    uint32_t public_refs;
    uint32_t private_refs;
    uint32_t interfaces;
    uint32_t objects;
} rimonakh_released;

/* The number of the set that was pinged, and the backoff factor. */
typedef struct {
    uint32_t answer;
    uint64_t set;
    uint16_t backoff;
} rimonakh_pinged;

/* The length of the list that was written, and the remote-unknown IPID. */
typedef struct {
    uint32_t answer;
    size_t length;
    rimonakh_guid unknown;
} rimonakh_resolved;

/* Where a next stop stands: in the store, where it holds until the next call that changes the store, or else in the reference; from
 * byte `from` up to and not with byte `to`. */
typedef struct {
    uint32_t answer;
    bool in_store;
    size_t from;
    size_t to;
} rimonakh_stop_place;

/* The tally of a replay: what accepted entries and adds granted, what releases took, and what the removal of an exporter, a clock
 * or the drop of a client took. Granted less taken less rundown is held, the sum of all counts of the table. */
typedef struct {
    uint64_t granted;
    uint64_t taken;
    uint64_t rundown;
} rimonakh_tally;

/* What a replay found: differs is 0 where every recorded answer is ours, else the number of the first record whose answer is
 * not, from 1. */
typedef struct {
    uint32_t answer;
    uint32_t differs;
    rimonakh_tally tally;
} rimonakh_outcome;

/* The whole records of a recording: how many, and where they end. */
typedef struct {
    uint64_t count;
    size_t end;
} rimonakh_prefix;

/* The state between two fragments of a reference: 104 bytes. The caller keeps it from call to call. */
typedef struct {
    uint8_t head[84]; /* the first bytes */
    size_t kept; /* bytes of the list or object data in the waiting buffer */
    uint32_t seen; /* bytes that came, counted up to 131,155 */
    uint8_t low; /* the last byte */
    uint8_t mode; /* where the walk over the list's words stands */
    bool over; /* whether more came than the waiting buffer holds */
} rimonakh_fragments;

/* The fields of a reference, and the length of its list or object data. */
typedef struct {
    uint32_t answer;
    rimonakh_reference reference;
    size_t length;
} rimonakh_finished;

/* The version of the archive: major * 65536 + minor * 256 + patch. */
uint32_t rimonakh_version(void);

/* The code that goes out on the wire for an answer number: an HRESULT or an error code. */
uint32_t rimonakh_wire_code(uint32_t number);

/* ---- call headers */

/* Reads the ORPCTHIS at the front of bytes; the bytes after its length are the call's own. 13; 16; then of the extensions 13 and
 * 14, whichever comes first in the bytes. */
rimonakh_read_this rimonakh_this_read(const uint8_t *bytes, size_t bytes_len);

/* Extension k, from 0, of the ORPCTHIS at the front of bytes. The header's refusals; 24. */
rimonakh_extension rimonakh_this_extension(const uint8_t *bytes, size_t bytes_len, size_t k);

/* Writes an ORPCTHIS without extensions, 32 bytes, at the front of buffer and keeps the rest. Minor version, flags, the two halves
 * of the causality id; buffer is written. 16; 15. */
uint32_t rimonakh_this_write(uint16_t minor, uint32_t flags, uint64_t causality_low, uint64_t causality_high,
                             uint8_t *buffer, size_t buffer_len);

/* Writes an ORPCTHIS with extensions at the front of buffer and keeps the rest. pointer is the header's pointer to the array: where
 * it is 0 there is no array, so that array is 0 and there are no extensions. array is the array's pointer to its extensions: 0 or
 * not where there are none, and not 0 where there are some. Of each extension, at most 32, entries has four words: the two halves of its
 * id, its pointer, which is not 0 and has 32 bits, and the size of its data. contents has all data, end to end. 16; 14 where a reader
 * would refuse the array by 14, where the words are not four for each, where the sizes do not make the length of contents, or where a
 * number does not fit its field; 15. */
rimonakh_written rimonakh_this_write_extensions(uint16_t minor, uint32_t flags, uint64_t causality_low,
                                                uint64_t causality_high, uint32_t pointer, uint32_t array,
                                                const uint64_t *entries, size_t entries_len, const uint8_t *contents,
                                                size_t contents_len, uint8_t *buffer, size_t buffer_len);

/* Reads the ORPCTHAT at the front of bytes; the bytes after its length are the call's own. 13 and 14, whichever comes first in the
 * bytes. */
rimonakh_read_that rimonakh_that_read(const uint8_t *bytes, size_t bytes_len);

/* Extension k, from 0, of the ORPCTHAT at the front of bytes. The header's refusals; 24. */
rimonakh_extension rimonakh_that_extension(const uint8_t *bytes, size_t bytes_len, size_t k);

/* Writes an ORPCTHAT without extensions, 8 bytes, at the front of buffer and keeps the rest. Flags; buffer is written. 15. */
uint32_t rimonakh_that_write(uint32_t flags, uint8_t *buffer, size_t buffer_len);

/* Writes an ORPCTHAT with extensions, as rimonakh_this_write_extensions does. 14; 15. */
rimonakh_written rimonakh_that_write_extensions(uint32_t flags, uint32_t pointer, uint32_t array, const uint64_t *entries,
                                                size_t entries_len, const uint8_t *contents, size_t contents_len,
                                                uint8_t *buffer, size_t buffer_len);

/* ---- binding lists */

/* Whether bytes are one whole binding list: 0; 13; 14, also for bytes left over. Four zero bytes are one, with two empty parts. A zero
 * word where a tower or service is due ends its part: MS-DCOM's own smallest list (N = 4, S = 2, four zero words), and a security part
 * that says RPC_C_AUTHN_NONE by a service of 0, are 14. */
uint32_t rimonakh_list_answer(const uint8_t *bytes, size_t bytes_len);

/* The same of the list at the front of bytes; the bytes after it are not judged. */
uint32_t rimonakh_list_front_answer(const uint8_t *bytes, size_t bytes_len);

/* The length in bytes of the list at the front of bytes; 0 where it is refused. */
size_t rimonakh_list_front_length(const uint8_t *bytes, size_t bytes_len);

/* Where string binding k, from 0, stands in a whole list: its first word through its zero word. The list's refusals; 24. */
rimonakh_place rimonakh_list_string_binding(const uint8_t *bytes, size_t bytes_len, size_t k);

/* The same of security binding k. */
rimonakh_place rimonakh_list_security_binding(const uint8_t *bytes, size_t bytes_len, size_t k);

/* Writes the list of string and security bindings at the front of buffer, keeps the rest, and answers its length. strings and
 * security, which are read, are the words of bindings in a row: a string binding is a tower, which is not 0, the words of an address
 * (UTF-16) and a zero word; a security binding a service, which is not 0, a word of any content, the words of a name and a zero word.
 * The words that end the parts are not given: N, S and these are written too. 14 where a part is no bindings in a row, or N would pass
 * 65,535; 15. */
rimonakh_written rimonakh_list_write(const uint16_t *strings, size_t strings_len, const uint16_t *security,
                                     size_t security_len, uint8_t *buffer, size_t buffer_len);

/* ---- references */

/* Whether bytes are a reference: 0; 13, 14 and 21 in the order of the bytes; 22. The element of an extended reference may hold a
 * reference, which is judged too, and the object data of a custom one with the context marshaler's CLSID is judged as a
 * context. */
uint32_t rimonakh_reference_answer(const uint8_t *bytes, size_t bytes_len);

/* Reads the fixed fields of a reference. 13, 14, 21; 22. */
rimonakh_read_reference rimonakh_reference_read(const uint8_t *bytes, size_t bytes_len);

/* Where the binding list of a reference stands in bytes, or the object data of a custom one. 13, 14, 21; 22. */
rimonakh_place rimonakh_reference_tail(const uint8_t *bytes, size_t bytes_len);

/* Where string binding k, from 0, of a reference stands in bytes. The reference's refusals; 24, also for a custom one. */
rimonakh_place rimonakh_reference_string_binding(const uint8_t *bytes, size_t bytes_len, size_t k);

/* The same of security binding k. */
rimonakh_place rimonakh_reference_security_binding(const uint8_t *bytes, size_t bytes_len, size_t k);

/* Where the data of element k, from 0, of an extended reference stands in bytes, without its padding. The reference's refusals;
 * 24, also for the other forms. */
rimonakh_place rimonakh_reference_element(const uint8_t *bytes, size_t bytes_len, size_t k);

/* Where the data of property k, from 0, of the context in a custom reference stands in bytes. The reference's refusals; 24, also
 * for a reference without a context. */
rimonakh_place rimonakh_reference_property(const uint8_t *bytes, size_t bytes_len, size_t k);

/* Writes a reference at the front of buffer, keeps the rest, and answers its length. Flags (the form); IID; the block's flags,
 * public references, OXID, OID and IPID; CLSID; extension size and size; the identifier of the element; then tail, which is
 * read: the binding list, or the object data of a custom reference; then content, which is read: the data of the element of an
 * extended reference. What the form does not have is not written. buffer is written. 14 for the flags; the refusals of the list
 * or the context; of the element, with 14 for data of more than 0xFFFFFFF8 bytes; 22; 15. */
rimonakh_written rimonakh_reference_write(uint32_t flags, uint64_t iid_low, uint64_t iid_high, uint32_t block_flags,
                                          uint32_t public_refs, uint64_t oxid, uint64_t oid, uint64_t ipid_low,
                                          uint64_t ipid_high, uint64_t clsid_low, uint64_t clsid_high,
                                          uint32_t extension, uint32_t size, uint64_t element_low,
                                          uint64_t element_high, const uint8_t *tail, size_t tail_len,
                                          const uint8_t *content, size_t content_len, uint8_t *buffer,
                                          size_t buffer_len);

/* ---- contexts: the object data of a custom reference with the context marshaler's CLSID */

/* Reads the fields of a context that are not fixed. 13, 14 in the order of the bytes. */
rimonakh_read_context rimonakh_context_read(const uint8_t *bytes, size_t bytes_len);

/* Reads the fields of property k, from 0, of a context. The context's refusals; 24. */
rimonakh_read_property rimonakh_context_property(const uint8_t *bytes, size_t bytes_len, size_t k);

/* Writes a context at the front of buffer, keeps the rest, and answers its length. Context id; reserved; marshal flags; the
 * number of properties; frozen; then properties, which is read: the bytes of the properties, one after the other. buffer is
 * written. 13, 14 of the properties; 15. */
rimonakh_written rimonakh_context_write(uint64_t id_low, uint64_t id_high, uint32_t reserved, uint32_t marshal,
                                        uint32_t count, uint32_t frozen, const uint8_t *properties,
                                        size_t properties_len, uint8_t *buffer, size_t buffer_len);

/* Writes a property at the front of buffer, keeps the rest, and answers its length. CLSID; policy; flags; then content, which is
 * read: its data. buffer is written. 14 for the flags; 14 for data of more than 0xFFFFFFFF bytes; 15. */
rimonakh_written rimonakh_property_write(uint64_t clsid_low, uint64_t clsid_high, uint64_t policy_low,
                                         uint64_t policy_high, uint32_t flags, const uint8_t *content,
                                         size_t content_len, uint8_t *buffer, size_t buffer_len);

/* ---- in one pass: bindings, properties, extensions
 *
 * By number each call judges all bytes and goes over them up to number k. A walk judges once, at its start, and then goes on where its
 * last step ended: a step at the start's `at` with its `left`, the next one at that step's `to` with its `left`, until one answers 24.
 * The steps meet numbers 0, 1, 2 and so on exactly.
 *
 * That is promised of a walk from the start of bytes that are not changed meanwhile. Other numbers are safe: each step looks whether
 * what it reads is there. A refused start has 0 left, so that a step from it answers 24. The list of a reference is the part that
 * rimonakh_reference_tail answers, and so is a context. */

/* Where a walk over the string bindings of a whole list begins. 13, 14, as rimonakh_list_answer. */
rimonakh_cursor rimonakh_list_strings(const uint8_t *bytes, size_t bytes_len);

/* The same over the security bindings. */
rimonakh_cursor rimonakh_list_securities(const uint8_t *bytes, size_t bytes_len);

/* The string binding at byte at, left words from there being left of its part. 13 where these are not there; 24 where there is
 * none. */
rimonakh_step rimonakh_list_next_string(const uint8_t *bytes, size_t bytes_len, size_t at, size_t left);

/* The same of a security binding. */
rimonakh_step rimonakh_list_next_security(const uint8_t *bytes, size_t bytes_len, size_t at, size_t left);

/* Where a walk over the properties of a context begins. 13, 14, as rimonakh_context_read. */
rimonakh_cursor rimonakh_context_properties(const uint8_t *bytes, size_t bytes_len);

/* The property at byte at, where left of them are left. 24 where none is; 13 where it is not all there. */
rimonakh_property_step rimonakh_context_next_property(const uint8_t *bytes, size_t bytes_len, size_t at, size_t left);

/* Where a walk over the extensions of the ORPCTHIS at the front of bytes begins. 13, 16, 14, as rimonakh_this_read. */
rimonakh_extension_cursor rimonakh_this_extensions(const uint8_t *bytes, size_t bytes_len);

/* The same of the ORPCTHAT at the front of bytes. 13, 14, as rimonakh_that_read. */
rimonakh_extension_cursor rimonakh_that_extensions(const uint8_t *bytes, size_t bytes_len);

/* The extension at byte at, whose pointer stands at byte pointer, where left of them are left. 24 where none is; 13 where one of the
 * two is not all there. */
rimonakh_extension_step rimonakh_next_extension(const uint8_t *bytes, size_t bytes_len, size_t pointer, size_t at,
                                                size_t left);

/* ---- references that come in over several packets
 *
 * A standard, handler or custom reference is read fragment by fragment. Two buffers are lent: the waiting one to every call of
 * one reference, which the caller leaves alone between them, and the final one at the end. What a call answers is promised for
 * the state and the waiting buffer as the last call left them; other ones are not refused, and may be answered anything. */

/* The state before the first fragment of a reference. */
rimonakh_fragments rimonakh_fragments_none(void);

/* The state after one fragment more, which may be of one byte or none. Of the list or object data the waiting buffer gets as much
 * as it holds. Nothing is refused before the end. */
rimonakh_fragments rimonakh_fragments_push(rimonakh_fragments state, uint8_t *waiting, size_t waiting_len,
                                           const uint8_t *fragment, size_t fragment_len);

/* Declares the end: the fields of the reference, and its list or object data at the front of last, whose rest is kept. Wherever
 * the bytes were cut, the answer is that of the whole, but that flags 8 is 14 and object data is not looked into. 13; 14; 22; 15
 * where the list or object data is longer than the waiting buffer or than last. */
rimonakh_finished rimonakh_fragments_finish(rimonakh_fragments state, const uint8_t *waiting, size_t waiting_len,
                                            uint8_t *last, size_t last_len);

/* ---- calls on a table: each is lent the array and the store, and answers 1 first */

/* Empties the table and sets its clock, in seconds. It looks at nothing but the lengths, and changes words only. */
uint32_t rimonakh_reset(uint64_t *words, size_t words_len, const uint8_t *store, size_t store_len, uint64_t time);

/* Enters an exporter: its OXID, its remote-unknown IPID, its binding list, which is copied into the store. 3; 13; 14; 19; 9
 * exactly where 16 exporters are live, or the live lists and this one together pass 8,192 bytes. */
uint32_t rimonakh_enter_exporter(uint64_t *words, size_t words_len, uint8_t *store, size_t store_len, uint64_t oxid,
                                 uint64_t unknown_low, uint64_t unknown_high, const uint8_t *list, size_t list_len);

/* Removes an exporter by its OXID, with its objects, their interfaces and memberships. 4. */
uint32_t rimonakh_remove_exporter(uint64_t *words, size_t words_len, uint8_t *store, size_t store_len, uint64_t oxid);

/* Enters an object with its first interface: OID, OXID, IPID, IID, public references, whether it is not pinged. 3; 4; 7; 9. */
uint32_t rimonakh_enter_object(uint64_t *words, size_t words_len, const uint8_t *store, size_t store_len, uint64_t oid,
                               uint64_t oxid, uint64_t ipid_low, uint64_t ipid_high, uint64_t iid_low,
                               uint64_t iid_high, uint32_t public_refs, bool no_ping);

/* Enters an interface of a live object: OID, IPID, IID, public references. 3; 5; 7; 9. */
uint32_t rimonakh_enter_interface(uint64_t *words, size_t words_len, const uint8_t *store, size_t store_len,
                                  uint64_t oid, uint64_t ipid_low, uint64_t ipid_high, uint64_t iid_low,
                                  uint64_t iid_high, uint32_t public_refs);

/* Adds references to an interface for a client, 0 to 7: client, IPID, public and private references. 20; 6; 8. */
uint32_t rimonakh_add(uint64_t *words, size_t words_len, const uint8_t *store, size_t store_len, uint32_t client,
                      uint64_t ipid_low, uint64_t ipid_high, uint32_t public_refs, uint32_t private_refs);

/* Gives references of an interface back: client, IPID, public and private references. The public count and the client's
 * private one fall by the smaller of the asked number and themselves; an interface without references goes, and an object
 * without interfaces, from its sets too. 20; 6. */
rimonakh_released rimonakh_release(uint64_t *words, size_t words_len, const uint8_t *store, size_t store_len,
                                   uint32_t client, uint64_t ipid_low, uint64_t ipid_high, uint32_t public_refs,
                                   uint32_t private_refs);

/* Adds references by a list of items for a client. An item is 24 bytes: an IPID, and a public and a private count of four
 * bytes, little-endian. The items are done one by one from the left, and the number of each, 0, 6 or 8, is written to its byte
 * at the front of results; the rest is kept. The whole list is refused by 20; 13 (no whole items); 10 (more than 65,535);
 * 15 (fewer bytes in results than items). */
uint32_t rimonakh_add_list(uint64_t *words, size_t words_len, const uint8_t *store, size_t store_len, uint32_t client,
                           const uint8_t *items, size_t items_len, uint8_t *results, size_t results_len);

/* Gives references back by a list of items, likewise; the number of an item is 0 or 6. 20; 13; 10; 15. */
uint32_t rimonakh_release_list(uint64_t *words, size_t words_len, const uint8_t *store, size_t store_len,
                               uint32_t client, const uint8_t *items, size_t items_len, uint8_t *results,
                               size_t results_len);

/* Drops every private reference of a client, 0 to 7. What is left without references goes as in a release. 20. */
uint32_t rimonakh_drop_client(uint64_t *words, size_t words_len, const uint8_t *store, size_t store_len,
                              uint32_t client);

/* Pings a set, by its number: the set and its members are heard. 11, also for set 0. */
uint32_t rimonakh_simple_ping(uint64_t *words, size_t words_len, const uint8_t *store, size_t store_len, uint64_t set);

/* Adds objects to a set, then takes objects out of it, and pings it: the set's number, or 0 for a new set; a sequence number;
 * then two lists of OIDs, which are read. Answers the set's number and a backoff factor of 0. 10; of a set other than 0:
 * 11; 12; 5; of a new set: 5; 9; 18. */
rimonakh_pinged rimonakh_complex_ping(uint64_t *words, size_t words_len, const uint8_t *store, size_t store_len,
                                      uint64_t set, uint16_t sequence, const uint64_t *adds, size_t adds_len,
                                      const uint64_t *deletes, size_t deletes_len);

/* Sets the clock, in seconds that only rise (see Time). Sets and pinged objects that were not heard for 360 seconds or more go;
 * answers how many. 2. */
rimonakh_counts rimonakh_clock(uint64_t *words, size_t words_len, const uint8_t *store, size_t store_len,
                               uint64_t time);

/* Writes the binding list of an exporter, by its OXID, at the front of buffer and keeps the rest. 4; 15. */
rimonakh_resolved rimonakh_resolve(const uint64_t *words, size_t words_len, const uint8_t *store, size_t store_len,
                                   uint64_t oxid, uint8_t *buffer, size_t buffer_len);

/* The same list with only the string bindings whose tower is among the requested protocols, in their order, and the whole
 * security part. 10 (more than 65,535 protocols); 4; 15, by the length of what is written. */
rimonakh_resolved rimonakh_resolve_filtered(const uint64_t *words, size_t words_len, const uint8_t *store,
                                            size_t store_len, uint64_t oxid, const uint16_t *protocols,
                                            size_t protocols_len, uint8_t *buffer, size_t buffer_len);

/* Where to go next with a reference: the binding list of its exporter in the store where its OXID is live, else its own list.
 * A place in the store holds until the next call that takes the store without const, for lists may move: copy the bytes before, or
 * ask again. The reference's refusals; 14 for a custom one. */
rimonakh_stop_place rimonakh_next_stop(const uint64_t *words, size_t words_len, const uint8_t *store, size_t store_len,
                                       const uint8_t *reference, size_t reference_len);

/* The live number of each kind. */
rimonakh_counts rimonakh_census(const uint64_t *words, size_t words_len, const uint8_t *store, size_t store_len);

/* The number of members of a ping set, by its number. 11. */
rimonakh_member_count rimonakh_members(const uint64_t *words, size_t words_len, const uint8_t *store, size_t store_len,
                                       uint64_t set);

/* Writes the snapshot of the table at the front of buffer, keeps the rest, and answers its length, which is at most
 * RIMONAKH_LONGEST_SNAPSHOT. The snapshot is the live entries as bytes, in one form: numbers little-endian, sections each after
 * its count of two bytes (2, clock, next set number; exporters; objects; interfaces; sets), each section and each list of members
 * rising by identifier, IPIDs by their bytes. 15. */
rimonakh_written rimonakh_write_snapshot(const uint64_t *words, size_t words_len, const uint8_t *store,
                                         size_t store_len, uint8_t *buffer, size_t buffer_len);

/* Loads a snapshot, which is read: the table then has its live entries, clock and next set number, whatever array and store held
 * before; as a reset it looks at nothing of them but the lengths. Its stack is 150 KiB at most. 23 where the bytes are not
 * the snapshot of any sound table. */
uint32_t rimonakh_load_snapshot(uint64_t *words, size_t words_len, uint8_t *store, size_t store_len,
                                const uint8_t *snapshot, size_t snapshot_len);

/* Replays a recording, which is read: calls in order, each with its answer, in the form of docs/RECORDING.md. The table is reset
 * at 0, whatever array and store held before; then each call is done, up to the first whose recorded answer is not ours, that
 * call among them. A recorded reset starts the tally at zero, an accepted load at the snapshot's counts as granted. Its stack is
 * 220 KiB at most. 13 where the bytes end before a number or a section does; 14 for a broken form; 10 for more than
 * RIMONAKH_MOST_RECORDS records. */
rimonakh_outcome rimonakh_replay(uint64_t *words, size_t words_len, uint8_t *store, size_t store_len,
                                 const uint8_t *recording, size_t recording_len);

/* The records from byte 8 that are whole and well formed, RIMONAKH_MOST_RECORDS at most: how many, and the byte where they end; whatever
 * the eight bytes before them are, and whatever stands behind them. Of a recording whose last write was torn these are the records that
 * were written: put their number into the first eight bytes, and the bytes up to `end` are replayed. 0 and 0 where eight bytes are not
 * there. */
rimonakh_prefix rimonakh_whole_records(const uint8_t *recording, size_t recording_len);

#ifdef __cplusplus
}
#endif

#endif
