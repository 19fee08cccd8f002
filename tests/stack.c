/*
 * The stack that each call takes, held against the numbers in include/rights.h.
 *
 * A call runs on a thread whose stack was painted before. What is no longer painted afterwards,
 * down from the caller's frame, is what the call took. Each call has a process of its own, in
 * which it runs on every picture and file below: of full size, clear, unclear, without an order
 * and refused, in a mode with arrows and in one without.
 *
 * What memcpy and memset take counts too, and so does finding them at their first call if the
 * program is linked with -Wl,-z,lazy. So this program calls neither of them itself. It needs
 * -pthread, and prints for each call what it takes and what the header says.
 */
#define _XOPEN_SOURCE 700
#include "rights.h"
#include <pthread.h>
#include <stdio.h>
#include <stdlib.h>
#include <sys/wait.h>
#include <unistd.h>

#define STACK (1 << 20)
#define FRAME 256 /* the caller's own frame, not painted: the least that is found */
#define KNOWN 20000

/* The picture and the buffers that the calls are lent, all of the greatest length. */
static uint8_t boxes[RIGHTS_BOXES_ROOM];
static uint16_t rows[RIGHTS_ROWS_ROOM], arrows[RIGHTS_ARROWS_ROOM];
static size_t boxes_len, rows_len, arrows_len;
static uint8_t file[RIGHTS_FILE_ROOM];
static size_t file_len;
static uint8_t scratch[RIGHTS_SCRATCH_ROOM], bytes[RIGHTS_PAIRS_ROOM], work[RIGHTS_PAIRS_ROOM];
static uint16_t numbers[RIGHTS_PAIRS_ROOM], list[RIGHTS_LIST_ROOM];
static uint16_t users[RIGHTS_ATOMS_ROOM], files[RIGHTS_ATOMS_ROOM];
static uint8_t read_boxes[RIGHTS_BOXES_ROOM];
static uint16_t read_rows[RIGHTS_ROWS_ROOM], read_arrows[RIGHTS_ARROWS_ROOM];
static uint8_t packed[RIGHTS_PACKED_ROOM];
static size_t packed_len = sizeof packed;

/* What is asked: an entry's user and file, and a mode. */
static uint16_t user, file_box, mode;

/* The calls. */

static void judge(void) {
    rights_judge(boxes, boxes_len, rows, rows_len, arrows, arrows_len, scratch, sizeof scratch);
}

static void entry(void) {
    rights_entry(boxes, boxes_len, rows, rows_len, arrows, arrows_len, user, file_box, mode,
                 scratch, sizeof scratch);
}

static void matrix(void) {
    rights_matrix(boxes, boxes_len, rows, rows_len, arrows, arrows_len, mode, scratch,
                  sizeof scratch, bytes, RIGHTS_PAIRS_ROOM, numbers, RIGHTS_PAIRS_ROOM);
}

static void list_call(void) {
    rights_list(boxes, boxes_len, rows, rows_len, arrows, arrows_len, mode, scratch,
                sizeof scratch, list, RIGHTS_LIST_ROOM, work, RIGHTS_PAIRS_ROOM);
}

static void atoms(void) {
    rights_atoms(boxes, boxes_len, rows, rows_len, users, RIGHTS_ATOMS_ROOM, files,
                 RIGHTS_ATOMS_ROOM);
}

static void read_call(void) {
    rights_read(file, file_len, read_boxes, RIGHTS_BOXES_ROOM, read_rows, RIGHTS_ROWS_ROOM,
                read_arrows, RIGHTS_ARROWS_ROOM);
}

static void pack(void) {
    rights_pack(boxes, boxes_len, rows, rows_len, arrows, arrows_len, packed, packed_len);
}

static void version(void) {
    rights_version();
}

/* Takes KNOWN bytes: the measure must find these. */
static void known(void) {
    volatile char here[KNOWN];
    here[0] = 1;
    here[KNOWN - 1] = here[0];
}

static const struct call {
    const char *name;
    void (*run)(void);
    long header;
} calls[] = {
    {"rights_judge", judge, RIGHTS_STACK_JUDGE},    {"rights_entry", entry, RIGHTS_STACK_ENTRY},
    {"rights_matrix", matrix, RIGHTS_STACK_MATRIX}, {"rights_list", list_call, RIGHTS_STACK_LIST},
    {"rights_atoms", atoms, RIGHTS_STACK_ATOMS},    {"rights_read", read_call, RIGHTS_STACK_READ},
    {"rights_pack", pack, RIGHTS_STACK_PACK},
    {"rights_version", version, RIGHTS_STACK_VERSION},
};

/* The measure. */

static const struct call *measured;
static unsigned char *stack;
static unsigned char paint;
static long taken; /* the most that was found so far */

static void *on_thread(void *unused) {
    volatile unsigned char here = 0;
    volatile unsigned char *places = stack;
    size_t top = (size_t)((uintptr_t)&here - (uintptr_t)stack), place;
    for (place = 0; place < top - FRAME; place++) {
        places[place] = paint;
    }
    measured->run();
    for (place = 0; place < top - FRAME && places[place] == paint; place++) {
    }
    if ((long)(top - place) > taken) {
        taken = (long)(top - place);
    }
    return unused;
}

static void stop(const char *why) {
    fprintf(stderr, "stack: %s\n", why);
    exit(2);
}

static void measure(void) {
    static const unsigned char paints[] = {0xa5, 0x5a};
    for (size_t k = 0; k < sizeof paints; k++) {
        pthread_attr_t attributes;
        pthread_t thread;
        paint = paints[k];
        if (pthread_attr_init(&attributes) != 0
            || pthread_attr_setstack(&attributes, stack, STACK) != 0
            || pthread_create(&thread, &attributes, on_thread, NULL) != 0
            || pthread_join(thread, NULL) != 0 || pthread_attr_destroy(&attributes) != 0) {
            stop("no thread with a stack of its own");
        }
    }
}

/* The pictures. */

static uint16_t add(int byte, int count) {
    uint16_t first = (uint16_t)boxes_len;
    for (int k = 0; k < count; k++) {
        boxes[boxes_len++] = (uint8_t)byte;
    }
    return first;
}

static void put(int outer, int inner) {
    rows[rows_len++] = (uint16_t)outer;
    rows[rows_len++] = (uint16_t)inner;
}

static void arrow(int tail, int head, int arrow_mode, int sign) {
    arrows[arrows_len++] = (uint16_t)tail;
    arrows[arrows_len++] = (uint16_t)head;
    arrows[arrows_len++] = (uint16_t)arrow_mode;
    arrows[arrows_len++] = (uint16_t)sign;
}

static void empty(void) {
    boxes_len = rows_len = arrows_len = 0;
}

/* 128 users and 128 files in no group, 512 arrows between them, every eighth negative. */
static void single(void) {
    empty();
    add(0, 128);
    add(1, 128);
    for (int k = 0; k < 512; k++) {
        arrow(k % 128, 128 + (k + k / 128) % 128, 0, k % 8 != 0);
    }
}

/* 64 users in 64 nested groups, 64 files in 64 nested folders, groups and folders by their bytes;
   each arrow reaches every pair, and the deeper half, which is positive, overrides the other. */
static void nested(void) {
    empty();
    for (int side = 0; side < 2; side++) {
        int atom = add(side, 64), group = add(side ? RIGHTS_FOLDER : RIGHTS_GROUP, 64);
        for (int k = 0; k < 63; k++) {
            put(group + k, group + k + 1);
        }
        for (int k = 0; k < 64; k++) {
            put(group + 63, atom + k);
        }
    }
    while (rows_len < RIGHTS_ROWS_ROOM) {
        put(64, 65); /* a repeated row changes nothing */
    }
    for (int k = 0; k < 512; k++) {
        int deep = k % 2 ? 32 : 0;
        arrow(64 + deep + k / 2 % 32, 192 + deep + k / 16 % 32, 0, k % 2);
    }
}

/* Groups and folders nested 22 deep with users and files at each step, an arrow from each group
   to each folder, whose sign changes with each step down. */
static void staircase(void) {
    empty();
    int begin[2];
    for (int side = 0; side < 2; side++) {
        int atom = add(side, 106);
        begin[side] = add(side, 22);
        for (int k = 0; k < 21; k++) {
            put(begin[side] + k, begin[side] + k + 1);
        }
        for (int k = 0; k < 106; k++) {
            put(begin[side] + k % 22, atom + k);
        }
    }
    for (int depth = 0; depth < 43; depth++) {
        for (int k = 0; k < 22; k++) {
            if (k <= depth && depth - k < 22) {
                arrow(begin[0] + k, begin[1] + depth - k, 0, depth % 2);
            }
        }
    }
}

/* The ring of case J with 42 users and 42 files: clear, no order. */
static void ring(void) {
    empty();
    int from = add(0, 42), wide = add(0, 42), close = add(0, 42);
    int to = add(1, 42), inner = add(1, 42), outer = add(1, 42);
    for (int k = 0; k < 42; k++) {
        int next = (k + 1) % 42;
        put(wide + k, from + k);
        put(close + k, from + k);
        put(wide + next, close + k);
        put(inner + k, to + k);
        put(outer + k, inner + k);
        put(outer + k, to + next);
        arrow(wide + k, inner + k, 0, 1);
        arrow(close + k, outer + k, 0, 0);
    }
}

/* Both signs between the last user and the last file of a full-size picture, in mode 7. */
static void unclear(void) {
    single();
    arrows_len -= 8;
    arrow(127, 255, 7, 1);
    arrow(127, 255, 7, 0);
}

/* 256 boxes that hold each other in a ring. */
static void looped(void) {
    empty();
    add(0, 256);
    for (int k = 0; k < 256; k++) {
        put(k, (k + 1) % 256);
    }
}

/* A full-size picture whose last arrow is wrong. */
static void wrong(void) {
    single();
    arrows[arrows_len - 1] = 2;
}

/* With the refusals of judging and of the list of mode 0, 0 for none, and the blocks of the packed
   file, 0 for a refusal by 7. */
static const struct picture {
    void (*make)(void);
    uint32_t judged, listed, blocks;
} pictures[] = {
    {empty, 0, 0, 1}, {single, 0, 0, 8},   {nested, 0, 0, 17},  {staircase, 0, 0, 10},
    {ring, 0, 13, 6}, {unclear, 12, 0, 8}, {looped, 10, 10, 4}, {wrong, 7, 7, 0},
};
enum { PICTURES = sizeof pictures / sizeof pictures[0] };

/* The head of a new block; answers where its records begin. */
static uint8_t *new_block(int kind, int count) {
    uint8_t *block = file + file_len;
    for (int k = 0; k < 512; k++) {
        block[k] = 0;
    }
    block[0] = (uint8_t)kind;
    block[2] = (uint8_t)(file_len / 512);
    block[4] = (uint8_t)count;
    block[5] = (uint8_t)(count >> 8);
    file_len += 512;
    return block + 8;
}

static void seal(uint8_t *block) {
    uint32_t check = 2166136261u;
    for (int k = 0; k < 508; k++) {
        check = (check ^ block[k]) * 16777619u;
    }
    for (int k = 0; k < 4; k++) {
        block[508 + k] = (uint8_t)(check >> (8 * k));
    }
}

/* The picture as a file of 64 blocks: 1 of boxes, 56 of containments, 7 of arrows. */
static void fill_file(void) {
    file_len = 0;
    uint8_t *first = new_block(1, (int)boxes_len);
    for (size_t k = 0; k < boxes_len; k++) {
        first[k] = boxes[k];
    }
    for (size_t part = 0, row = 0; part < 56; part++) {
        size_t end = rows_len / 2 * (part + 1) / 56;
        uint8_t *place = new_block(2, (int)(end - row));
        for (; row < end; row++, place += 4) {
            place[0] = (uint8_t)rows[2 * row];
            place[2] = (uint8_t)rows[2 * row + 1];
        }
    }
    for (size_t part = 0, row = 0; part < 7; part++) {
        size_t end = arrows_len / 4 * (part + 1) / 7;
        uint8_t *place = new_block(3, (int)(end - row));
        for (; row < end; row++, place += 6) {
            place[0] = (uint8_t)arrows[4 * row];
            place[2] = (uint8_t)arrows[4 * row + 1];
            place[4] = (uint8_t)arrows[4 * row + 2];
            place[5] = (uint8_t)arrows[4 * row + 3];
        }
    }
    for (size_t at = 0; at < file_len; at += 512) {
        seal(file + at);
    }
}

/* The call on everything that there is. */
static void measure_all(void) {
    static const uint16_t modes[] = {0, 7, 8};
    for (int k = 0; k < PICTURES; k++) {
        pictures[k].make();
        for (size_t m = 0; m < 3; m++) {
            mode = modes[m];
            user = 0;
            file_box = (uint16_t)(boxes_len / 2);
            measure();
        }
        user = RIGHTS_NO_ARROW; /* no box */
        mode = 0;
        packed_len = 511; /* no block */
        measure();
        packed_len = sizeof packed;
        fill_file();
        measure();
        file[file_len - 5] ^= 1; /* the last block is damaged */
        measure();
        file_len++;
        measure();
    }
}

/* What a call takes, found by a process of its own. */
static long found(const struct call *call) {
    int ends[2];
    long answer = -1;
    int status = 0;
    if (pipe(ends) != 0) {
        stop("no pipe");
    }
    pid_t child = fork();
    if (child == 0) {
        measured = call;
        measure_all();
        _exit(write(ends[1], &taken, sizeof taken) != (ssize_t)sizeof taken);
    }
    close(ends[1]);
    if (child < 0 || read(ends[0], &answer, sizeof answer) != (ssize_t)sizeof answer
        || waitpid(child, &status, 0) != child || status != 0) {
        stop("a call wasn't measured");
    }
    close(ends[0]);
    return answer;
}

/* Whether the picture is packed into as many blocks as are said of it, and read back from them. */
static int packed_as_said(uint32_t blocks) {
    rights_reply packing = rights_pack(boxes, boxes_len, rows, rows_len, arrows, arrows_len, packed,
                                       sizeof packed);
    if (blocks == 0) {
        return packing.kind == RIGHTS_REFUSED && packing.number == RIGHTS_MODE_OR_SIGN;
    }
    rights_reply reading = rights_read(packed, (size_t)packing.a, read_boxes, RIGHTS_BOXES_ROOM,
                                       read_rows, RIGHTS_ROWS_ROOM, read_arrows,
                                       RIGHTS_ARROWS_ROOM);
    return packing.kind == RIGHTS_DONE && packing.a == 512 * blocks && reading.kind == RIGHTS_DONE
           && rights_boxes_len(reading) == boxes_len && rights_rows_len(reading) == rows_len
           && rights_arrows_len(reading) == arrows_len;
}

/* Whether the pictures and their files are what is said of them. */
static int as_said(void) {
    int good = 1;
    for (int k = 0; k < PICTURES; k++) {
        pictures[k].make();
        fill_file();
        rights_reply judged = rights_judge(boxes, boxes_len, rows, rows_len, arrows, arrows_len,
                                           scratch, sizeof scratch);
        rights_reply listed = rights_list(boxes, boxes_len, rows, rows_len, arrows, arrows_len, 0,
                                          scratch, sizeof scratch, list, RIGHTS_LIST_ROOM, work,
                                          RIGHTS_PAIRS_ROOM);
        rights_reply reading = rights_read(file, file_len, read_boxes, RIGHTS_BOXES_ROOM, read_rows,
                                           RIGHTS_ROWS_ROOM, read_arrows, RIGHTS_ARROWS_ROOM);
        good = good && judged.number == pictures[k].judged && listed.number == pictures[k].listed
               && file_len == RIGHTS_MAX_FILE && reading.kind == RIGHTS_DONE
               && rights_rows_len(reading) == rows_len && rights_arrows_len(reading) == arrows_len
               && packed_as_said(pictures[k].blocks);
    }
    return good;
}

int main(void) {
    static const struct call test = {"the test's own", known, KNOWN + FRAME};
    void *memory;
    int failed = 0;
    if (posix_memalign(&memory, 4096, STACK) != 0) {
        stop("no memory");
    }
    stack = memory;
    long own = found(&test);
    if (own < KNOWN || own > test.header) {
        printf("the measure finds %ld bytes where %d were taken\n", own, KNOWN);
        failed++;
    }
    for (size_t k = 0; k < sizeof calls / sizeof calls[0]; k++) {
        long most = found(&calls[k]);
        printf("%-14s takes %6ld bytes, the header says %6ld%s\n", calls[k].name, most,
               calls[k].header, most > calls[k].header ? ": TOO MUCH" : "");
        failed += most > calls[k].header;
    }
    if (!as_said()) {
        printf("a picture isn't what is said of it\n");
        failed++;
    }
    printf("stack: %s\n", failed ? "FAILED" : "passed");
    return failed != 0;
}
