// Compiles a rule file, and prints the trees of its terms: ./example rules.isle
//
// To build it, run `rt lib` in crates/isle_capi, and then this in the present folder, where KIT is the toolchain's folder:
//   gcc -std=c11 -Wall -Wextra -o example example.c ../../crates/isle_capi/out/libisle_capi.a $KIT/c/liblibc_c.a
#include "isle.h"

#include <stdio.h>
#include <stdlib.h>
#include <string.h>

// A file in the library's form: the bytes of its name, followed by those of its text.
struct input {
    uint8_t *bytes;
    struct isle_file file;
};

// Prints what went wrong, and ends the program.
static void fail(const char *what) {
    fprintf(stderr, "example: %s\n", what);
    exit(4);
}

// Memory of this many bytes, plus one, so that the pointer is never null.
static uint8_t *room_for(size_t size) {
    uint8_t *room = malloc(size + 1);
    if (room == NULL)
        fail("out of memory");
    return room;
}

// Reads a file.
static struct input read_file(const char *name) {
    FILE *file = fopen(name, "rb");
    if (file == NULL || fseek(file, 0, SEEK_END) != 0)
        fail("the file can't be read");
    long size = ftell(file);
    if (size < 0 || fseek(file, 0, SEEK_SET) != 0)
        fail("the file can't be read");
    struct input input = {.file = {.name_length = strlen(name), .text_length = (size_t)size}};
    input.bytes = room_for(input.file.name_length + input.file.text_length);
    memcpy(input.bytes, name, input.file.name_length);
    if (fread(input.bytes + input.file.name_length, 1, input.file.text_length, file) != input.file.text_length)
        fail("the file can't be read");
    fclose(file);
    return input;
}

int main(int count, char **words) {
    if (count != 2)
        fail("usage: example FILE");
    struct input input = read_file(words[1]);
    size_t length = input.file.name_length + input.file.text_length;
    struct isle_options options = {.task = ISLE_TREES, .format = ISLE_TEXT, .expand = 1};
    struct isle_prefix no_prefix = {0};

    // The first call says how much room the text needs, if there is a text. The second call has this room.
    struct isle_sizes sizes;
    uint8_t *out = room_for(0);
    uint32_t status = isle_capi_lower(input.bytes, length, &input.file, 1, &options, input.bytes, 0, &no_prefix, 0, out, 0, &sizes);
    if (status == ISLE_NO_ROOM) {
        free(out);
        size_t room = sizes.needed;
        out = room_for(room);
        status = isle_capi_lower(input.bytes, length, &input.file, 1, &options, input.bytes, 0, &no_prefix, 0, out, room, &sizes);
    }

    // Trees go to standard output, and errors to standard error.
    fwrite(out, 1, sizes.written, status == ISLE_DONE ? stdout : stderr);
    if (status != ISLE_DONE && status != ISLE_ERRORS)
        fprintf(stderr, "example: status %u\n", (unsigned)status);
    free(out);
    free(input.bytes);
    return (int)status;
}
