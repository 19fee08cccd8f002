/*
 * What the examples here begin with: reading the block file that an argument names, and telling
 * what failed. PROGRAM is the name that messages begin with.
 */
#ifndef PICTURE_H
#define PICTURE_H

#include "rights.h"
#include <errno.h>
#include <stdio.h>
#include <string.h>

enum { GOOD = 0, NOT_GOOD = 1, FAILED = 2 };

/* The file and its picture, long enough for every picture. */
static uint8_t file[RIGHTS_FILE_ROOM];
static uint8_t boxes[RIGHTS_BOXES_ROOM];
static uint16_t rows[RIGHTS_ROWS_ROOM], arrows[RIGHTS_ARROWS_ROOM];
static size_t boxes_len, rows_len, arrows_len;

/* A refusal: its number, its name, and the three numbers as the header lists them. */
static void tell(FILE *out, rights_reply reply) {
    unsigned long long a = reply.a, b = reply.b, c = reply.c;
    fprintf(out, "refused %u, %s: ", (unsigned)reply.number, rights_refusal_name(reply.number));
    switch (reply.number) {
    case RIGHTS_RAGGED: fprintf(out, "table %llu, length %llu\n", a, b); break;
    case RIGHTS_TOO_MANY_ROWS: fprintf(out, "table %llu, %llu rows\n", a, b); break;
    case RIGHTS_BOX_BYTE:
    case RIGHTS_CONTAINS_ITSELF: fprintf(out, "box %llu\n", a); break;
    case RIGHTS_NO_SUCH_BOX:
    case RIGHTS_ACROSS_SIDES: fprintf(out, "containment %llu\n", a); break;
    case RIGHTS_ARROW_ENDS:
    case RIGHTS_MODE_OR_SIGN: fprintf(out, "arrow %llu\n", a); break;
    case RIGHTS_BUFFER_SHORT:
        fprintf(out, "%s, length needed %llu\n", rights_buffer_name(a), b);
        break;
    case RIGHTS_UNCLEAR_PAIR:
    case RIGHTS_NO_ORDER: fprintf(out, "mode %llu, user %llu, file %llu\n", a, b, c); break;
    case RIGHTS_FILE_LENGTH:
        fprintf(out, "%llu bytes%s\n", a, a > RIGHTS_MAX_FILE ? " or more" : "");
        break;
    case RIGHTS_BLOCK_CHECK:
    case RIGHTS_BLOCK_HEAD:
    case RIGHTS_FILLER: fprintf(out, "block %llu\n", a); break;
    default: fprintf(out, "%llu, %llu, %llu\n", a, b, c);
    }
}

/* Ends with a refusal of the file or of its picture. */
static int refused(const char *name, rights_reply reply) {
    fprintf(stderr, PROGRAM ": %s: ", name);
    tell(stderr, reply);
    return FAILED;
}

/* Ends with a failure of the system. */
static int failed(const char *what, const char *name) {
    fprintf(stderr, PROGRAM ": cannot %s %s: %s\n", what, name, strerror(errno));
    return FAILED;
}

/* Whether all that was printed went out. */
static int finish(int status) {
    return fflush(stdout) != 0 || ferror(stdout) ? failed("write", "the output") : status;
}

/* Reads the named file into the tables. GOOD, or FAILED with a message. */
static int read_picture(const char *name) {
    if (rights_version() != RIGHTS_VERSION) {
        fprintf(stderr, PROGRAM ": built for version %06x of the library, linked with %06x\n",
                (unsigned)RIGHTS_VERSION, (unsigned)rights_version());
        return FAILED;
    }

    /* A file that is too long fills the whole array and is then refused by its length. */
    FILE *in = fopen(name, "rb");
    if (in == NULL) {
        return failed("open", name);
    }
    size_t file_len = fread(file, 1, sizeof file, in);
    if (ferror(in)) {
        return failed("read", name);
    }
    fclose(in);

    rights_reply read = rights_read(file, file_len, boxes, RIGHTS_BOXES_ROOM, rows,
                                    RIGHTS_ROWS_ROOM, arrows, RIGHTS_ARROWS_ROOM);
    if (read.kind != RIGHTS_DONE) {
        return refused(name, read);
    }
    boxes_len = rights_boxes_len(read);
    rows_len = rights_rows_len(read);
    arrows_len = rights_arrows_len(read);
    return GOOD;
}

#endif
