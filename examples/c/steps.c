/*
 * Shows the steps up from a person or a file: reads the block file that its first argument names,
 * and prints the boxes that the box numbered by its second is in, directly and through others,
 * then the same of each box that a step leads up to.
 *
 *   cc -std=c99 -Iinclude -o steps examples/c/steps.c target/staticlib/librights_c.a
 *   ./steps samples/J.blk 0
 *
 * Exit status: 0 if no box contains itself, 1 if one does, 2 if the file can't be read, it or its
 * picture is refused before the containments are found out, or there is no such box.
 */
#define PROGRAM "steps"
#include "picture.h"
#include <stdlib.h>

static uint8_t scratch[RIGHTS_SCRATCH_ROOM];

/* The boxes of which the scratch says this about box b. How many they are. */
static int print_boxes(const char *words, size_t b, uint8_t said) {
    int count = 0;
    for (size_t a = 0; a < boxes_len; a++) {
        if (scratch[a * boxes_len + b] == said) {
            printf("%s %zu", count == 0 ? words : "", a);
            count++;
        }
    }
    return count;
}

/* Walks up from box b by the steps that are drawn, the nearest boxes first, each box once. */
static void print_steps(size_t b) {
    size_t walk[RIGHTS_MAX_BOXES] = {b}, end = 1;
    int met[RIGHTS_MAX_BOXES] = {0};
    met[b] = 1;
    for (size_t k = 0; k < end; k++) {
        printf("box %zu:", walk[k]);
        int direct = print_boxes(" directly in", walk[k], RIGHTS_CONTAINED_DIRECTLY);
        int others = print_boxes(direct ? "; through others in" : " through others in", walk[k],
                                 RIGHTS_CONTAINED_THROUGH_OTHERS);
        printf("%s\n", direct || others ? "" : " in no other box");
        for (size_t a = 0; a < boxes_len; a++) {
            if (scratch[a * boxes_len + walk[k]] == RIGHTS_CONTAINED_DIRECTLY && !met[a]) {
                met[a] = 1;
                walk[end++] = a;
            }
        }
    }
}

int main(int count, char **names) {
    if (count != 3) {
        fprintf(stderr, "steps FILE BOX: the steps up from BOX in the picture of block file FILE\n");
        return FAILED;
    }
    int status = read_picture(names[1]);
    if (status != GOOD) {
        return status;
    }
    char *rest;
    unsigned long box = strtoul(names[2], &rest, 10);
    if (names[2][0] < '0' || names[2][0] > '9' || *rest != '\0' || box >= boxes_len) {
        fprintf(stderr, "steps: %s: no box %s, it has %zu boxes\n", names[1], names[2], boxes_len);
        return FAILED;
    }

    /* Scratch is filled after DONE and after every refusal from 10 on: an unclear pair, for
       instance, doesn't matter here. */
    rights_reply judged = rights_judge(boxes, boxes_len, rows, rows_len, arrows, arrows_len,
                                       scratch, RIGHTS_SCRATCH_ROOM);
    if (judged.kind != RIGHTS_DONE && judged.number < RIGHTS_CONTAINS_ITSELF) {
        return refused(names[1], judged);
    }
    print_steps(box);
    if (judged.kind != RIGHTS_DONE && judged.number == RIGHTS_CONTAINS_ITSELF) {
        tell(stdout, judged);
        return finish(NOT_GOOD);
    }
    return finish(GOOD);
}
