/*
 * Case B through the C header, call by call: that the header and the library fit together, with
 * the kinds, lengths and names of the header. Then packed files, and a group and a folder that have
 * emptied. Last a picture that shows which pair 13 names, and whose scratch holds all three values.
 */

#include "rights.h"
#include <stdio.h>
#include <string.h>

static int failed = 0;

static void expect(const char *what, rights_reply got, uint32_t kind, uint32_t number,
                   uint64_t a, uint64_t b, uint64_t c) {
    if (got.kind != kind || got.number != number || got.a != a || got.b != b || got.c != c) {
        printf("%s: kind %u, number %u, %llu %llu %llu\n", what, (unsigned)got.kind,
               (unsigned)got.number, (unsigned long long)got.a, (unsigned long long)got.b,
               (unsigned long long)got.c);
        failed++;
    }
}

static void name(const char *what, const char *got, const char *wanted) {
    if (strcmp(got, wanted) != 0) {
        printf("%s: %s\n", what, got);
        failed++;
    }
}

static void hold(const char *what, int good) {
    if (!good) {
        printf("%s: wrong\n", what);
        failed++;
    }
}

/* FNV-1a over the first 508 bytes of a block, stored in its last four. */
static void seal(uint8_t *block) {
    uint32_t check = 2166136261u;
    for (int k = 0; k < 508; k++) {
        check = (check ^ block[k]) * 16777619u;
    }
    for (int k = 0; k < 4; k++) {
        block[508 + k] = (uint8_t)(check >> (8 * k));
    }
}

/*
 * J with a user in front and a file behind, joined by a positive arrow. Granted are (0, 13),
 * (1, 8) and (2, 7). No list reaches all three, but an honest one reaches the first.
 */
static void ring(void) {
    const uint8_t boxes[14] = {0, 0, 0, 0, 0, 0, 0, 1, 1, 1, 1, 1, 1, 1};
    const uint16_t rows[24] = {3, 1, 3,  6, 4,  1,  5,  4, 5,  2,  6,  2,
                               9, 8, 10, 9, 10, 7, 11, 7, 12, 11, 12, 8};
    const uint16_t arrows[20] = {3, 9, 0, 1, 4, 10, 0, 0, 5, 11, 0, 1, 6, 12, 0, 0, 0, 13, 0, 1};
    uint8_t contained[196] = {RIGHTS_NOT_CONTAINED}, scratch[197], work[9];
    uint16_t list[5];
    for (int k = 0; k < 24; k += 2) {
        contained[14 * rows[k] + rows[k + 1]] = RIGHTS_CONTAINED_DIRECTLY;
    }
    /* 3 holds 6 with 2 in it, 5 holds 4 with 1, 10 holds 9 with 8, 12 holds 11 with 7. */
    contained[14 * 3 + 2] = contained[14 * 5 + 1] = RIGHTS_CONTAINED_THROUGH_OTHERS;
    contained[14 * 10 + 8] = contained[14 * 12 + 7] = RIGHTS_CONTAINED_THROUGH_OTHERS;

    memset(scratch, 9, sizeof scratch);
    expect("first granted pair",
           rights_entry(boxes, 14, rows, 24, arrows, 20, 0, 13, 0, scratch, 197), RIGHTS_GRANTED,
           0, 4, 0, 0);
    hold("scratch after an entry", memcmp(scratch, contained, 196) == 0 && scratch[196] == 9);
    memset(scratch, 9, sizeof scratch);
    expect("no order",
           rights_list(boxes, 14, rows, 24, arrows, 20, 0, scratch, 197, list, 5, work, 9),
           RIGHTS_REFUSED, RIGHTS_NO_ORDER, 0, 1, 8);
    hold("scratch after 13", memcmp(scratch, contained, 196) == 0 && scratch[196] == 9);
}

static const uint16_t no_rows[1] = {9};

/*
 * The calls on a picture of three boxes without rows: user 0, file 2, and box 1, a group or folder
 * that has emptied and whose arrow reaches nothing. user and file name box 1 on its side.
 */
static void emptied(const uint8_t *boxes, const uint16_t *arrows, uint16_t user, uint16_t file) {
    uint8_t scratch[10], bytes[2] = {9, 9}, work[2] = {9, 9};
    uint16_t numbers[2] = {9, 9}, list[2] = {9, 9}, users[2] = {9, 9}, files[2] = {9, 9};
    memset(scratch, 9, sizeof scratch);
    expect("emptied: atoms", rights_atoms(boxes, 3, no_rows, 0, users, 2, files, 2), RIGHTS_DONE,
           0, 1, 1, 0);
    hold("emptied: users", users[0] == 0 && users[1] == 9);
    hold("emptied: files", files[0] == 2 && files[1] == 9);
    expect("emptied: judge", rights_judge(boxes, 3, no_rows, 0, arrows, 4, scratch, 9),
           RIGHTS_DONE, 0, 0, 0, 0);
    expect("emptied: entry",
           rights_entry(boxes, 3, no_rows, 0, arrows, 4, user, file, 0, scratch, 9),
           RIGHTS_REFUSED, RIGHTS_NOT_ATOMIC, user, file, 0);
    expect("emptied: entry beside it",
           rights_entry(boxes, 3, no_rows, 0, arrows, 4, 0, 2, 0, scratch, 9),
           RIGHTS_DENIED_BY_DEFAULT, 0, 0, 0, 0);
    expect("emptied: matrix",
           rights_matrix(boxes, 3, no_rows, 0, arrows, 4, 0, scratch, 9, bytes, 1, numbers, 1),
           RIGHTS_DONE, 0, 0, 0, 0);
    hold("emptied: bytes", bytes[0] == RIGHTS_DENIED && bytes[1] == 9);
    hold("emptied: numbers", numbers[0] == RIGHTS_NO_ARROW && numbers[1] == 9);
    expect("emptied: no list places",
           rights_list(boxes, 3, no_rows, 0, arrows, 4, 0, scratch, 9, list, 0, work, 1),
           RIGHTS_REFUSED, RIGHTS_BUFFER_SHORT, RIGHTS_LIST, 1, 0);
    expect("emptied: list",
           rights_list(boxes, 3, no_rows, 0, arrows, 4, 0, scratch, 9, list, 1, work, 1),
           RIGHTS_DONE, 0, 0, 0, 0);
    hold("emptied: list and work", list[0] == 9 && work[0] == 0 && work[1] == 9);
    hold("emptied: scratch beyond", scratch[9] == 9);
}

/* The bytes of boxes, a group and a folder that have emptied, and what refusals 3 and 5 say. */
static void groups(void) {
    const uint8_t group[3] = {RIGHTS_USER, RIGHTS_GROUP, RIGHTS_FILE};
    const uint8_t folder[3] = {RIGHTS_USER, RIGHTS_FOLDER, RIGHTS_FILE};
    const uint8_t above[2] = {RIGHTS_FOLDER, RIGHTS_FOLDER + 1};
    const uint16_t from_group[4] = {1, 2, 0, 1}, to_folder[4] = {0, 1, 0, 1}, row[2] = {0, 1};
    uint16_t users[1] = {9}, files[1] = {9};
    hold("bytes of boxes", RIGHTS_USER == 0 && RIGHTS_FILE == 1 && RIGHTS_GROUP == 2
                               && RIGHTS_FOLDER == 3);
    emptied(group, from_group, 1, 2);
    emptied(folder, to_folder, 0, 1);
    expect("byte 4", rights_atoms(above, 2, no_rows, 0, users, 1, files, 1), RIGHTS_REFUSED,
           RIGHTS_BOX_BYTE, 1, 0, 0);
    expect("a folder in a user box", rights_atoms(folder, 3, row, 2, users, 1, files, 1),
           RIGHTS_REFUSED, RIGHTS_ACROSS_SIDES, 0, 0, 0);
    hold("refused: users and files", users[0] == 9 && files[0] == 9);
    expect("a group in a user box", rights_atoms(group, 3, row, 2, users, 1, files, 1),
           RIGHTS_DONE, 0, 0, 1, 0);
    hold("around a group: users and files", users[0] == 9 && files[0] == 2);
}

/* A block from its head and records and the bytes of its check; the filler is zero. */
static int is_block(const uint8_t *block, const uint8_t *begin, size_t length,
                    const uint8_t *check) {
    uint8_t wanted[512] = {0};
    memcpy(wanted, begin, length);
    memcpy(wanted + 508, check, 4);
    return memcmp(block, wanted, 512) == 0;
}

/* B packed: its bytes, a byte too few, and what is left alone. */
static void packing_b(void) {
    const uint8_t boxes[4] = {0, 0, 0, 1};
    const uint16_t rows[4] = {2, 0, 2, 1}, arrows[8] = {0, 3, 0, 1, 2, 3, 0, 0};
    const uint8_t first[] = {1, 0, 0, 0, 4, 0, 0, 0, 0, 0, 0, 1};
    const uint8_t second[] = {2, 0, 1, 0, 2, 0, 0, 0, 2, 0, 0, 0, 2, 0, 1, 0};
    const uint8_t third[] = {3, 0, 2, 0, 2, 0, 0, 0, 0, 0, 3, 0, 0, 1, 2, 0, 3, 0, 0, 0};
    const uint8_t checks[3][4] = {
        {0xd3, 0x74, 0x47, 0x2a}, {0x05, 0x17, 0x4f, 0xf5}, {0x73, 0x74, 0xdc, 0xc5}};
    uint8_t file[1538], untouched[1538];
    memset(file, 9, sizeof file);
    memset(untouched, 9, sizeof untouched);
    rights_reply reply = rights_pack(boxes, 4, rows, 4, arrows, 8, file, 1535);
    expect("packing, a byte short", reply, RIGHTS_REFUSED, RIGHTS_BUFFER_SHORT,
           RIGHTS_PACKED_FILE, 1536, 0);
    name("packing, the short buffer", rights_buffer_name(reply.a), "packed file");
    expect("packing, an odd length", rights_pack(boxes, 4, rows, 3, arrows, 8, file, 1536),
           RIGHTS_REFUSED, RIGHTS_RAGGED, 1, 3, 0);
    expect("packing, an arrow to a user", rights_pack(boxes, 3, rows, 4, arrows, 8, file, 0),
           RIGHTS_REFUSED, RIGHTS_ARROW_ENDS, 0, 0, 0);
    hold("packing, refused", memcmp(file, untouched, sizeof file) == 0);
    expect("packing", rights_pack(boxes, 4, rows, 4, arrows, 8, file, 1537), RIGHTS_DONE, 0, 1536,
           0, 0);
    hold("packed boxes", is_block(file, first, sizeof first, checks[0]));
    hold("packed containments", is_block(file + 512, second, sizeof second, checks[1]));
    hold("packed arrows", is_block(file + 1024, third, sizeof third, checks[2]));
    hold("packing, beyond", file[1536] == 9 && file[1537] == 9);
}

/* Packed files of A and H, and of a picture at the limits, which is read again. */
static void packing(void) {
    static uint8_t boxes[RIGHTS_BOXES_ROOM], file[RIGHTS_PACKED_ROOM];
    static uint16_t rows[RIGHTS_ROWS_ROOM], arrows[RIGHTS_ARROWS_ROOM];
    static uint8_t read_boxes[RIGHTS_BOXES_ROOM];
    static uint16_t read_rows[RIGHTS_ROWS_ROOM], read_arrows[RIGHTS_ARROWS_ROOM];
    const uint8_t a = 1, check_a[4] = {0x84, 0xa9, 0xf5, 0xb3};
    packing_b();
    expect("packing A", rights_pack(boxes, 0, rows, 0, arrows, 0, file, 512), RIGHTS_DONE, 0, 512,
           0, 0);
    hold("packed A", is_block(file, &a, 1, check_a));
    expect("packing H", rights_pack(boxes, 1, rows, 2, arrows, 0, file, 1024), RIGHTS_DONE, 0,
           1024, 0, 0);
    boxes[255] = RIGHTS_FILE;
    for (size_t k = 0; k < RIGHTS_ROWS_ROOM; k++) {
        rows[k] = (uint16_t)(k % 255);
    }
    for (size_t k = 0; k < RIGHTS_ARROWS_ROOM; k += 4) {
        arrows[k] = (uint16_t)(k / 4 % 255);
        arrows[k + 1] = 255;
        arrows[k + 2] = (uint16_t)(k / 4 % RIGHTS_MODES);
        arrows[k + 3] = (uint16_t)(k / 32 % 2);
    }
    rights_reply reply = rights_pack(boxes, RIGHTS_BOXES_ROOM, rows, RIGHTS_ROWS_ROOM, arrows,
                                     RIGHTS_ARROWS_ROOM, file, sizeof file);
    expect("packing the most", reply, RIGHTS_DONE, 0, RIGHTS_PACKED_ROOM, 0, 0);
    hold("room for a packed file", RIGHTS_PACKED_ROOM == 8704);
    reply = rights_read(file, (size_t)reply.a, read_boxes, RIGHTS_BOXES_ROOM, read_rows,
                        RIGHTS_ROWS_ROOM, read_arrows, RIGHTS_ARROWS_ROOM);
    expect("reading it", reply, RIGHTS_DONE, 0, RIGHTS_MAX_BOXES, RIGHTS_MAX_CONTAINMENTS,
           RIGHTS_MAX_ARROWS);
    hold("its boxes", memcmp(boxes, read_boxes, sizeof boxes) == 0);
    hold("its rows", memcmp(rows, read_rows, sizeof rows) == 0);
    hold("its arrows", memcmp(arrows, read_arrows, sizeof arrows) == 0);
}

int main(void) {
    const uint8_t boxes[4] = {0, 0, 0, 1};
    const uint16_t rows[4] = {2, 0, 2, 1};
    const uint16_t arrows[8] = {0, 3, 0, 1, 2, 3, 0, 0};
    uint8_t contained[16] = {RIGHTS_NOT_CONTAINED};
    contained[2 * 4 + 0] = contained[2 * 4 + 1] = RIGHTS_CONTAINED_DIRECTLY;
    uint8_t scratch[17], bytes[3] = {9, 9, 9}, work[3] = {9, 9, 9};
    uint16_t numbers[3] = {9, 9, 9}, list[3] = {9, 9, 9};
    uint16_t users[3] = {9, 9, 9}, files[3] = {9, 9, 9};
    const rights_reply zeros = {0, 0, 0, 0, 0};
    hold("version", rights_version() == RIGHTS_VERSION);
    hold("a reply of zeros", zeros.kind == RIGHTS_DENIED);
    hold("values of scratch", RIGHTS_NOT_CONTAINED == 0 && RIGHTS_CONTAINED_THROUGH_OTHERS == 1
                                  && RIGHTS_CONTAINED_DIRECTLY == 2);
    for (int k = 0; k < 17; k++) {
        scratch[k] = 9;
    }

    expect("short scratch", rights_judge(boxes, 4, rows, 4, arrows, 8, scratch, 15),
           RIGHTS_REFUSED, RIGHTS_BUFFER_SHORT, RIGHTS_SCRATCH, 16, 0);
    hold("scratch untouched", scratch[0] == 9);
    expect("judge", rights_judge(boxes, 4, rows, 4, arrows, 8, scratch, 17), RIGHTS_DONE, 0, 0,
           0, 0);
    for (int k = 0; k < 16; k++) {
        hold("scratch", scratch[k] == contained[k]);
    }
    hold("scratch beyond", scratch[16] == 9);

    expect("entry 0, 3", rights_entry(boxes, 4, rows, 4, arrows, 8, 0, 3, 0, scratch, 16),
           RIGHTS_GRANTED, 0, 0, 0, 0);
    expect("entry 1, 3", rights_entry(boxes, 4, rows, 4, arrows, 8, 1, 3, 0, scratch, 16),
           RIGHTS_DENIED, 0, 1, 0, 0);
    expect("entry, mode 1", rights_entry(boxes, 4, rows, 4, arrows, 8, 1, 3, 1, scratch, 16),
           RIGHTS_DENIED_BY_DEFAULT, 0, 0, 0, 0);
    expect("a group", rights_entry(boxes, 4, rows, 4, arrows, 8, 2, 3, 0, scratch, 16),
           RIGHTS_REFUSED, RIGHTS_NOT_ATOMIC, 2, 3, 0);

    expect("matrix",
           rights_matrix(boxes, 4, rows, 4, arrows, 8, 0, scratch, 16, bytes, 3, numbers, 3),
           RIGHTS_DONE, 0, 0, 0, 0);
    hold("matrix bytes",
         bytes[0] == RIGHTS_GRANTED && bytes[1] == RIGHTS_DENIED && bytes[2] == 9);
    hold("matrix numbers", numbers[0] == 0 && numbers[1] == 1 && numbers[2] == 9);

    expect("list", rights_list(boxes, 4, rows, 4, arrows, 8, 0, scratch, 16, list, 3, work, 3),
           RIGHTS_DONE, 0, 2, 0, 0);
    hold("list places", list[0] == 0 && list[1] == 1 && list[2] == 9);
    hold("work", work[0] == 0 && work[1] == 0 && work[2] == 9);

    expect("one place for users", rights_atoms(boxes, 4, rows, 4, users, 1, files, 0),
           RIGHTS_REFUSED, RIGHTS_BUFFER_SHORT, RIGHTS_ATOMIC_USERS, 2, 0);
    expect("no place for files", rights_atoms(boxes, 4, rows, 4, users, 2, files, 0),
           RIGHTS_REFUSED, RIGHTS_BUFFER_SHORT, RIGHTS_ATOMIC_FILES, 1, 0);
    expect("an odd length", rights_atoms(boxes, 4, rows, 3, users, 3, files, 3), RIGHTS_REFUSED,
           RIGHTS_RAGGED, 1, 3, 0);
    hold("atoms untouched", users[0] == 9 && files[0] == 9);
    expect("atoms", rights_atoms(boxes, 4, rows, 4, users, 3, files, 3), RIGHTS_DONE, 0, 2, 1, 0);
    hold("users", users[0] == 0 && users[1] == 1 && users[2] == 9);
    hold("files", files[0] == 3 && files[1] == 9 && files[2] == 9);

    /* B as a file: a block of boxes, one of containments, one of arrows. */
    uint8_t file[1536] = {1, 0, 0, 0, 4, 0, 0, 0, 0, 0, 0, 1};
    const uint8_t second[] = {2, 0, 1, 0, 2, 0, 0, 0, 2, 0, 0, 0, 2, 0, 1, 0};
    const uint8_t third[] = {3, 0, 2, 0, 2, 0, 0, 0, 0, 0, 3, 0, 0, 1, 2, 0, 3, 0, 0, 0};
    memcpy(file + 512, second, sizeof second);
    memcpy(file + 1024, third, sizeof third);
    uint8_t read_boxes[5] = {9, 9, 9, 9, 9};
    uint16_t read_rows[5] = {9, 9, 9, 9, 9};
    uint16_t read_arrows[9] = {9, 9, 9, 9, 9, 9, 9, 9, 9};
    rights_reply reply = rights_read(file, 1536, read_boxes, 5, read_rows, 5, read_arrows, 9);
    expect("unsealed", reply, RIGHTS_REFUSED, RIGHTS_BLOCK_CHECK, 0, 0, 0);
    hold("lengths after a refusal",
         rights_boxes_len(reply) + rights_rows_len(reply) + rights_arrows_len(reply) == 0);
    for (int k = 0; k < 3; k++) {
        seal(file + 512 * k);
    }
    reply = rights_read(file, 1536, read_boxes, 5, read_rows, 5, read_arrows, 9);
    expect("read", reply, RIGHTS_DONE, 0, 4, 2, 2);
    hold("boxes read", memcmp(read_boxes, boxes, sizeof boxes) == 0 && read_boxes[4] == 9);
    hold("rows read", memcmp(read_rows, rows, sizeof rows) == 0 && read_rows[4] == 9);
    hold("arrows read", memcmp(read_arrows, arrows, sizeof arrows) == 0 && read_arrows[8] == 9);
    hold("lengths", rights_boxes_len(reply) == 4 && rights_rows_len(reply) == 4
                        && rights_arrows_len(reply) == 8);
    expect("511 bytes", rights_read(file, 511, read_boxes, 5, read_rows, 5, read_arrows, 9),
           RIGHTS_REFUSED, RIGHTS_FILE_LENGTH, 511, 0, 0);

    name("refusal 0", rights_refusal_name(0), "no refusal");
    name("refusal 3", rights_refusal_name(RIGHTS_BOX_BYTE), "box byte above 3");
    name("refusal 9", rights_refusal_name(RIGHTS_BUFFER_SHORT), "buffer too short");
    name("refusal 13", rights_refusal_name(RIGHTS_NO_ORDER), "no order");
    name("refusal 17", rights_refusal_name(RIGHTS_FILLER), "filler not zero");
    name("refusal 18", rights_refusal_name(18), "unknown refusal");
    name("buffer 7", rights_buffer_name(RIGHTS_ARROWS), "arrows");
    name("buffer 8", rights_buffer_name(8), "packed file");
    name("buffer 9", rights_buffer_name(9), "unknown buffer");
    name("buffer 12", rights_buffer_name(RIGHTS_ATOMIC_FILES), "atomic files");

    packing();
    groups();
    ring();
    printf("boundary: %s\n", failed ? "FAILED" : "passed");
    return failed != 0;
}
