/*
 * Packs a picture as a drawing tool would: draws picture B into three tables, packs them, writes
 * the packed file under the name that its argument gives, and reads it back.
 *
 *   cc -std=c99 -Iinclude -o pack examples/c/pack.c target/staticlib/librights_c.a
 *   ./pack B.blk
 *
 * Exit status: 0 if the file is written and reads as the picture that was drawn, 2 if not.
 */
#define PROGRAM "pack"
#include "picture.h"

/* Users 0 and 1 in box 2, file 3; arrow 0 gives user 0 the file, arrow 1 denies it to the box. */
static const uint8_t drawn_boxes[] = {RIGHTS_USER, RIGHTS_USER, RIGHTS_USER, RIGHTS_FILE};
static const uint16_t drawn_rows[] = {2, 0, 2, 1};
static const uint16_t drawn_arrows[] = {0, 3, 0, 1, 2, 3, 0, 0};
#define LENGTH(table) (sizeof table / sizeof table[0])

/* Writes the first bytes of the packed file: as many as rights_pack answered. */
static int write_file(const char *name, const uint8_t *bytes, size_t length) {
    FILE *out = fopen(name, "wb");
    if (out == NULL) {
        return failed("open", name);
    }
    int wrong = fwrite(bytes, 1, length, out) != length;
    wrong |= fclose(out) != 0;
    return wrong ? failed("write", name) : GOOD;
}

/* Whether what was read is what was drawn. */
static int same_picture(void) {
    return boxes_len == LENGTH(drawn_boxes) && rows_len == LENGTH(drawn_rows)
        && arrows_len == LENGTH(drawn_arrows)
        && memcmp(boxes, drawn_boxes, sizeof drawn_boxes) == 0
        && memcmp(rows, drawn_rows, sizeof drawn_rows) == 0
        && memcmp(arrows, drawn_arrows, sizeof drawn_arrows) == 0;
}

int main(int count, char **names) {
    if (count != 2) {
        fprintf(stderr, "pack FILE: writes picture B to block file FILE\n");
        return FAILED;
    }
    uint8_t packed[RIGHTS_PACKED_ROOM];
    rights_reply reply = rights_pack(drawn_boxes, LENGTH(drawn_boxes), drawn_rows,
                                     LENGTH(drawn_rows), drawn_arrows, LENGTH(drawn_arrows),
                                     packed, sizeof packed);
    if (reply.kind != RIGHTS_DONE) {
        return refused("the picture", reply);
    }
    printf("packed %llu bytes\n", (unsigned long long)reply.a);
    int status = write_file(names[1], packed, (size_t)reply.a);
    if (status == GOOD) {
        status = read_picture(names[1]);
    }
    if (status != GOOD) {
        return status;
    }
    if (!same_picture()) {
        fprintf(stderr, "pack: %s reads as another picture\n", names[1]);
        return FAILED;
    }
    printf("read back %zu boxes, %zu containments, %zu arrows\n", boxes_len, rows_len / 2,
           arrows_len / 4);
    return finish(GOOD);
}
