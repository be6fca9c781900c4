/*
 * Error information in a reply. A server puts a custom-marshaled error (MS-DCOM, section 2.2.21) into an extension of its reply's
 * header; a client reads the header, finds the extension by its id, reads the reference in its data and prints the error. The
 * reply's own bytes stand after the header. Then the same reply damaged: each refusal is printed by its number.
 *
 *     cc -Iinclude examples/fault.c target/librimonakh.a -o fault && ./fault
 */
#include "rimonakh_more.h"

#include <inttypes.h>
#include <stdio.h>
#include <string.h>

/* {0000031c-0000-0000-c000-000000000046}, the id of the extension; {0000031b-..}, the CLSID of the error that it carries */
static const rimonakh_guid ERROR_EXTENSION = {0x31C, 0x46000000000000C0};
static const rimonakh_guid ERROR_OBJECT = {0x31B, 0x46000000000000C0};
/* {1cf2b120-547d-101b-8e65-08002b2bd119}, IErrorInfo */
static const rimonakh_guid ERROR_INFO = {0x101B547D1CF2B120, 0x19D12B2B0008658E};
/* {39c13a54-011e-11d0-9675-0020afd8adb3}, the interface that failed: a group of items */
static const rimonakh_guid GROUP = {0x11D0011E39C13A54, 0xB3ADD8AF20007596};

/* ---- the server's side */

/* A string of an error: a mark that it is there, its length twice with a zero between, UTF-16 with a zero at its end. */
static uint8_t *put_text(uint8_t *bytes, const char *text) {
    size_t length = strlen(text) + 1;
    bytes = rimonakh_put(bytes, 0xFFFFFFFF, 4);
    bytes = rimonakh_put(bytes, length, 4);
    bytes = rimonakh_put(bytes, 0, 4);
    bytes = rimonakh_put(bytes, length, 4);
    for (size_t i = 0; i < length; i++)
        bytes = rimonakh_put(bytes, (unsigned char)text[i], 2);
    return bytes;
}

/* The error's fields: version, help context, IID, source, description, no help file. Answers their length. */
static size_t error_fields(uint8_t *fields) {
    uint8_t *at = rimonakh_put(fields, 0, 8);
    rimonakh_guid_to_bytes(GROUP, at);
    at = put_text(at + 16, "tank gauge 3");
    at = put_text(at, "the sensor does not answer");
    return (size_t)(rimonakh_put(at, 0, 4) - fields);
}

/* A reply that failed: a header with the error, then the reply's own bytes, a result code. Answers its length. */
static size_t fail(uint8_t *reply, size_t room) {
    uint8_t fields[256], error[512];
    const size_t length = error_fields(fields);
    const rimonakh_guid none = {0, 0};
    const rimonakh_reference made = {
        RIMONAKH_CUSTOM, ERROR_INFO, {0, 0, 0, 0, none}, ERROR_OBJECT, 0, (uint32_t)length, none};
    rimonakh_written written = rimonakh_write_reference(&made, fields, length, NULL, 0, error, sizeof error);
    printf("server: writes the error as a custom reference: %" PRIu32 ", %zu bytes\n", written.answer, written.length);
    uint64_t entry[] = {RIMONAKH_GUID(ERROR_EXTENSION), 0x20008, written.length};
    written = rimonakh_that_write_extensions(0, 0x20000, 0x20004, entry, 4, error, written.length, reply, room);
    printf("server: writes the reply's header with one extension: %" PRIu32 ", %zu bytes\n", written.answer, written.length);
    rimonakh_put(reply + written.length, 0x80004005, 4);
    return written.length + 4;
}

/* ---- the client's side */

static uint32_t number_at(const uint8_t *bytes, size_t at) {
    return (uint32_t)rimonakh_get(bytes + at, 4);
}

/* Prints a string of an error if it is there, and answers where it ends; 0 where it is cut short. */
static size_t print_text(const char *name, const uint8_t *fields, size_t length, size_t at) {
    if (length - at < 4)
        return 0;
    if (number_at(fields, at) == 0)
        return at + 4;
    if (length - at < 16)
        return 0;
    size_t units = number_at(fields, at + 12);
    at += 16;
    if ((length - at) / 2 < units)
        return 0;
    printf("    %s: ", name);
    for (size_t i = 0; i + 1 < units; i++)
        putchar(fields[at + 2 * i + 1] == 0 ? fields[at + 2 * i] : '?');
    printf("\n");
    return at + 2 * units;
}

/* Prints the error in the data of an extension. */
static void print_error(const uint8_t *error, size_t length) {
    rimonakh_read_reference read = rimonakh_reference_read(error, length);
    if (read.answer != 0 || read.reference.flags != RIMONAKH_CUSTOM || !rimonakh_guid_equal(read.reference.clsid, ERROR_OBJECT)) {
        printf("    no error that is known here\n");
        return;
    }
    rimonakh_place place = rimonakh_reference_tail(error, length);
    const uint8_t *fields = error + place.from;
    size_t at = 24;
    length = place.to - place.from;
    if (length < at)
        return;
    if ((at = print_text("source", fields, length, at)) != 0)
        if ((at = print_text("description", fields, length, at)) != 0)
            print_text("help file", fields, length, at);
}

/* Prints a reply: its header, each of its extensions, its result code. */
static void receive(const uint8_t *reply, size_t length) {
    rimonakh_read_that read = rimonakh_that_read(reply, length);
    if (read.answer != 0) {
        printf("client: refused by %" PRIu32 ", %s\n", read.answer, rimonakh_answer_text(read.answer));
        return;
    }
    printf("client: a header of %zu bytes, extensions: %" PRIu32 "\n", read.length, read.extensions.count);
    for (uint32_t k = 0; k < read.extensions.count; k++) {
        rimonakh_extension x = rimonakh_that_extension(reply, length, k);
        printf("  extension %" PRIu32 ", %zu bytes%s\n", k, x.to - x.from,
               rimonakh_guid_equal(x.id, ERROR_EXTENSION) ? ", error information" : "");
        if (rimonakh_guid_equal(x.id, ERROR_EXTENSION))
            print_error(reply + x.from, x.to - x.from);
    }
    if (length - read.length >= 4)
        printf("  result %08" PRIx32 "\n", number_at(reply, read.length));
}

int main(void) {
    uint8_t reply[1024];
    size_t length = fail(reply, sizeof reply);
    receive(reply, length);
    printf("cut inside the extension\n");
    receive(reply, 100);
    printf("more than 32 extensions\n");
    reply[8] = 33;
    receive(reply, length);
    printf("no extensions\n");
    printf("server: writes the reply's header: %" PRIu32 "\n", rimonakh_that_write(0, reply, sizeof reply));
    rimonakh_put(reply + 8, 0, 4);
    receive(reply, 12);
    return 0;
}
