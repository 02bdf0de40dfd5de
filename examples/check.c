/*
 * Checks a DEX file, and lists the classes of an accepted one with the number of static fields of each.
 *
 *     check FILE
 *
 * The exit status is 0 for an accepted file, 1 for a refused one, 2 where the file cannot be read or the output not written.
 */
#include <errno.h>
#include <inttypes.h>
#include <stdio.h>
#include <stdlib.h>
#include <string.h>

#include "dralovika.h"

/* What a refusal says, in words. */
static const char *const words[] = {
    [DRALOVIKA_REFUSAL_TOO_SHORT] = "the file has under 112 bytes",
    [DRALOVIKA_REFUSAL_TOO_LONG] = "the file has over 67,108,864 bytes",
    [DRALOVIKA_REFUSAL_MAGIC] = "magic or version",
    [DRALOVIKA_REFUSAL_ENDIAN_TAG] = "endian tag",
    [DRALOVIKA_REFUSAL_SIZES] = "header size or file size",
    [DRALOVIKA_REFUSAL_BOUNDS] = "a table or the data section breaks its bounds",
    [DRALOVIKA_REFUSAL_NOT_THERE] = "no such number or place",
    [DRALOVIKA_REFUSAL_OFFSET] = "an offset outside the data section, or not aligned",
    [DRALOVIKA_REFUSAL_PAST_END] = "an item runs past the data section's end",
    [DRALOVIKA_REFUSAL_LEB128] = "a malformed LEB128 number",
    [DRALOVIKA_REFUSAL_INDEX] = "an index out of range",
    [DRALOVIKA_REFUSAL_VALUE] = "a value's code or size argument",
    [DRALOVIKA_REFUSAL_DEPTH] = "bodies nested deeper than 64",
    [DRALOVIKA_REFUSAL_TEXT] = "a malformed text, or its length",
    [DRALOVIKA_REFUSAL_ORDER] = "out of order, or there twice",
    [DRALOVIKA_REFUSAL_MAP] = "a rule of the map",
    [DRALOVIKA_REFUSAL_CODE] = "a rule of code items",
    [DRALOVIKA_REFUSAL_VISIBILITY] = "a visibility over 2, or a method handle's type over 8",
    [DRALOVIKA_REFUSAL_ROOM] = "an output too short",
    [DRALOVIKA_REFUSAL_INPUT] = "the input has over 65,536 bytes"
};

/* Is there an answer? A refusal is written down; none is no answer, and no fault. */
static int answered(const uint64_t *out)
{
    if (out[DRALOVIKA_STATUS] == DRALOVIKA_REFUSED) {
        uint64_t number = out[DRALOVIKA_REFUSED_NUMBER];
        const char *rule = number < sizeof words / sizeof *words ? words[number] : "a rule that is newer than this program";
        printf("refused: %" PRIu64 " (%s) at %" PRIu64 "\n", number, rule, out[DRALOVIKA_REFUSED_PLACE]);
    }
    return out[DRALOVIKA_STATUS] == DRALOVIKA_ANSWER;
}

/* A whole stream in memory, and its length; NULL where it cannot be read or there is no memory for it. The caller frees it. */
static uint8_t *contents(FILE *stream, size_t *length)
{
    uint8_t *file = NULL;
    size_t room = 0;
    size_t got;

    *length = 0;
    do {
        if (*length == room) {
            /* Never 0 bytes, so that an empty file has a pointer too. */
            room = room == 0 ? 65536 : 2 * room;
            uint8_t *larger = realloc(file, room);
            if (larger == NULL) {
                free(file);
                return NULL;
            }
            file = larger;
        }
        got = fread(file + *length, 1, room - *length, stream);
        *length += got;
        /* A byte more than the longest file is enough to have it refused. */
    } while (got > 0 && *length <= DRALOVIKA_LONGEST);
    if (ferror(stream)) {
        free(file);
        return NULL;
    }
    return file;
}

/* The name of class n, and how many static fields it has, on a line. 0 where a question is not answered: in an accepted file each is. */
static int listed(const uint8_t *file, size_t length, uint32_t n)
{
    uint64_t out[DRALOVIKA_WORDS];
    uint64_t statics = 0;

    dralovika_class_data(file, length, n, out);
    if (answered(out))
        statics = out[DRALOVIKA_CLASS_DATA_STATICS];
    else if (out[DRALOVIKA_STATUS] != DRALOVIKA_NONE)
        return 0;

    dralovika_class(file, length, n, out);
    if (!answered(out))
        return 0;
    dralovika_type_name(file, length, (uint32_t)out[DRALOVIKA_CLASS_TYPE], out);
    if (!answered(out))
        return 0;
    dralovika_string(file, length, (uint32_t)out[DRALOVIKA_NUMBER], out);
    if (!answered(out))
        return 0;

    /* The name's own bytes, as they stand in the file. */
    fwrite(file + out[DRALOVIKA_STRING_PLACE], 1, (size_t)out[DRALOVIKA_STRING_LENGTH], stdout);
    printf(" %" PRIu64 "\n", statics);
    return 1;
}

/* Is the file accepted? Its classes are listed. */
static int accepted(const uint8_t *file, size_t length)
{
    uint64_t out[DRALOVIKA_WORDS];

    dralovika_check(file, length, out);
    if (!answered(out))
        return 0;
    puts("accepted");

    dralovika_header(file, length, out);
    if (!answered(out))
        return 0;
    uint64_t classes = out[DRALOVIKA_HEADER_CLASSES_COUNT];
    for (uint64_t n = 0; n < classes; n++)
        if (!listed(file, length, (uint32_t)n))
            return 0;
    return 1;
}

int main(int argc, char **argv)
{
    if (argc != 2) {
        fprintf(stderr, "usage: check FILE\n");
        return 2;
    }
    FILE *stream = fopen(argv[1], "rb");
    if (stream == NULL) {
        fprintf(stderr, "check: %s: %s\n", argv[1], strerror(errno));
        return 2;
    }
    size_t length;
    uint8_t *file = contents(stream, &length);
    if (file == NULL)
        fprintf(stderr, "check: %s: %s\n", argv[1], ferror(stream) ? "cannot be read" : "no memory");
    fclose(stream);
    if (file == NULL)
        return 2;

    int status = accepted(file, length) ? 0 : 1;
    free(file);
    if (fflush(stdout) != 0 || ferror(stdout)) {
        fprintf(stderr, "check: the output cannot be written\n");
        return 2;
    }
    return status;
}
