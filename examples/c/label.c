/*
 * Labels the rights of a picture: reads the block file that its argument names, judges the
 * picture, prints the matrix of mode 0 with its users and files, and the first-match list of mode 0
 * or why there is none.
 *
 *   cc -std=c99 -Iinclude -o label examples/c/label.c target/staticlib/librights_c.a
 *   ./label samples/B.blk
 *
 * Exit status: 0 if the picture is clear and has the list, 1 if it is unclear in some mode or mode
 * 0 has no list, 2 if the file can't be read, or it or its picture is refused.
 */
#define PROGRAM "label"
#include "picture.h"

static uint8_t scratch[RIGHTS_SCRATCH_ROOM];

enum { MODE = 0 };

/* What the calls are lent beside the picture and scratch, long enough for every picture. */
static uint16_t users[RIGHTS_ATOMS_ROOM], files[RIGHTS_ATOMS_ROOM];
static uint8_t bytes[RIGHTS_PAIRS_ROOM], work[RIGHTS_PAIRS_ROOM];
static uint16_t numbers[RIGHTS_PAIRS_ROOM], list[RIGHTS_LIST_ROOM];

static void print_matrix(size_t user_count, size_t file_count) {
    printf("mode%4d", MODE);
    for (size_t j = 0; j < file_count; j++) {
        printf("  %8s%4u", "file", files[j]);
    }
    printf("\n");
    for (size_t i = 0; i < user_count; i++) {
        printf("user%4u", users[i]);
        for (size_t j = 0; j < file_count; j++) {
            size_t place = i * file_count + j;
            const char *answer = bytes[place] == RIGHTS_GRANTED   ? "granted"
                                 : bytes[place] == RIGHTS_UNCLEAR ? "unclear"
                                                                  : "denied";
            if (numbers[place] == RIGHTS_NO_ARROW) {
                printf("  %8s%4s", answer, "-");
            } else {
                printf("  %8s%4u", answer, numbers[place]);
            }
        }
        printf("\n");
    }
}

int main(int count, char **names) {
    if (count != 2) {
        fprintf(stderr, "label FILE: the rights that the block file FILE grants in mode 0\n");
        return FAILED;
    }
    const char *name = names[1];
    int status = read_picture(name);
    if (status != GOOD) {
        return status;
    }

    rights_reply judged = rights_judge(boxes, boxes_len, rows, rows_len, arrows, arrows_len,
                                       scratch, RIGHTS_SCRATCH_ROOM);
    if (judged.kind != RIGHTS_DONE && judged.number != RIGHTS_UNCLEAR_PAIR) {
        return refused(name, judged);
    }
    printf("boxes %zu, containments %zu, arrows %zu\n", boxes_len, rows_len / 2, arrows_len / 4);
    if (judged.kind == RIGHTS_DONE) {
        printf("clear in every mode\n");
    } else {
        printf("unclear, first in mode %llu for user %llu and file %llu\n",
               (unsigned long long)judged.a, (unsigned long long)judged.b,
               (unsigned long long)judged.c);
    }

    rights_reply atoms = rights_atoms(boxes, boxes_len, rows, rows_len, users, RIGHTS_ATOMS_ROOM,
                                      files, RIGHTS_ATOMS_ROOM);
    rights_reply filled = rights_matrix(boxes, boxes_len, rows, rows_len, arrows, arrows_len, MODE,
                                        scratch, RIGHTS_SCRATCH_ROOM, bytes, RIGHTS_PAIRS_ROOM,
                                        numbers, RIGHTS_PAIRS_ROOM);
    if (atoms.kind != RIGHTS_DONE) {
        return refused(name, atoms);
    }
    if (filled.kind != RIGHTS_DONE) {
        return refused(name, filled);
    }
    print_matrix((size_t)atoms.a, (size_t)atoms.b);

    rights_reply listed = rights_list(boxes, boxes_len, rows, rows_len, arrows, arrows_len, MODE,
                                      scratch, RIGHTS_SCRATCH_ROOM, list, RIGHTS_LIST_ROOM, work,
                                      RIGHTS_PAIRS_ROOM);
    if (listed.kind == RIGHTS_DONE) {
        printf("list of mode %d: %llu arrow%s\n", MODE, (unsigned long long)listed.a,
               listed.a == 1 ? "" : "s");
        for (size_t k = 0; k < listed.a; k++) {
            const uint16_t *arrow = arrows + 4 * (size_t)list[k];
            printf("arrow %u: box %u %s box %u\n", list[k], arrow[0],
                   arrow[3] ? "granted" : "denied", arrow[1]);
        }
        return finish(judged.kind == RIGHTS_DONE ? GOOD : NOT_GOOD);
    }
    if (listed.number == RIGHTS_UNCLEAR_PAIR || listed.number == RIGHTS_NO_ORDER) {
        printf("no list of mode %d: ", MODE);
        tell(stdout, listed);
        return finish(NOT_GOOD);
    }
    return refused(name, listed);
}
