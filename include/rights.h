/*
 * The rights checker of the run store: C boundary.
 *
 * Eight calls: judge a picture, answer one entry, fill the matrix of a mode, write the
 * first-match list of a mode, name the atomic users and files, read a block file, pack a picture
 * into one, and tell the version. C99 and later, C++11 and later.
 *
 * Pointers and lengths
 *   Every array comes as a pointer and its length in elements: not in bytes, and not in rows of
 *   the picture. A pointer must not be null and must be aligned for its elements, also where the
 *   length is 0; it is then never followed. Arrays lent for writing must overlap no other array
 *   of the same call. Apart from that every length and every content is allowed: faults are
 *   refused, not undefined.
 *
 * A picture is three tables, never written to by the calls on tables:
 *   boxes   one byte each: 0 user side, 1 file side, 2 user group, 3 folder; see RIGHTS_USER and
 *           the names beside it. User groups are on the user side, folders on the file side.
 *           A box's number is its place.
 *   rows    containments, two numbers each: outer box, inner box. rows_len is twice their count.
 *   arrows  four numbers each: tail (a box of the user side), head (one of the file side),
 *           mode 0 to 7, sign (1 positive, 0 negative). arrows_len is four times their count. An
 *           arrow's number is its row.
 *   At most 256 boxes, 1,024 containments and 512 arrows. A box of byte 0 or 1 that is the outer
 *   one of no row is atomic; user groups and folders never are. Pairs are (atomic user, atomic
 *   file), ordered by user, then file, both by rising number; their count is the number of atomic
 *   users times that of atomic files.
 *   Box a contains box b if a chain of one or more rows leads from a to b. An arrow reaches a
 *   pair if its tail is the user or contains it, and its head is the file or contains it.
 *
 * Counts are not lengths
 *   rights_read answers how many containments and arrows it read; the other calls take lengths
 *   in numbers, twice and four times as many. A count handed on as a length is often accepted
 *   and stands for a picture with fewer rows, whose answers may be others. Use
 *   rights_rows_len and rights_arrows_len below.
 *
 * Scratch
 *   n * n bytes for n boxes. Once refusals 1 to 9 are out of the question, byte a * n + b ends
 *   as 2 if a row has box a as outer and box b as inner, else as 1 if a contains b, through
 *   others only, else as 0; so too when the call is then refused with 10 or a later number.
 *   RIGHTS_CONTAINED_DIRECTLY, RIGHTS_CONTAINED_THROUGH_OTHERS and RIGHTS_NOT_CONTAINED are
 *   the names of the three. To know whether a contains b, ask whether the byte isn't 0. The
 *   contents of scratch before the call don't matter.
 *
 * In every array lent for writing, places beyond the needed length stay as they were.
 *
 * Threads
 *   A call keeps no pointer, and the library has no memory of its own that it writes to. Calls
 *   may run at the same time. They may share arrays that they only read, as long as nobody
 *   writes to these meanwhile; an array lent for writing belongs to one call at a time.
 *
 * Platform
 *   librights_c.a is for x86-64 and the calling convention of Linux there (System V); size_t has
 *   64 bits. It needs memcpy and memset from outside and nothing else, and is position-
 *   independent. Tables hold numbers in the machine's own byte order; block files are
 *   little-endian.
 */
#ifndef RIGHTS_H
#define RIGHTS_H

#include <stddef.h>
#include <stdint.h>

#ifdef __cplusplus
extern "C" {
#endif

/* The version that this header belongs to: major, minor and patch, one byte each. */
#define RIGHTS_VERSION 0x040000u

/* Limits of a picture and of a block file. */
#define RIGHTS_MAX_BOXES 256
#define RIGHTS_MAX_CONTAINMENTS 1024
#define RIGHTS_MAX_ARROWS 512
#define RIGHTS_MODES 8        /* modes are 0 to 7 */
#define RIGHTS_MAX_FILE 32768 /* bytes, 64 blocks of 512 */

/* Lengths, in elements, that suffice for every picture. */
#define RIGHTS_BOXES_ROOM 256
#define RIGHTS_ROWS_ROOM 2048
#define RIGHTS_ARROWS_ROOM 2048
#define RIGHTS_SCRATCH_ROOM 65536
#define RIGHTS_PAIRS_ROOM 16384 /* matrix bytes, matrix numbers, work */
#define RIGHTS_LIST_ROOM 512
#define RIGHTS_ATOMS_ROOM 256 /* atomic users, atomic files */
/* For a file: a byte more than the longest one, so that a longer one is refused by 14. Cut to
   RIGHTS_MAX_FILE it might pass for a good file with fewer rows. */
#define RIGHTS_FILE_ROOM 32769
#define RIGHTS_PACKED_ROOM 8704 /* bytes of the longest packed file, 17 blocks */

/*
 * Stack that suffices for a call, in bytes, with what memcpy and memset take: measured on
 * pictures and files of full size. tests/stack.c measures it again and fails if a call takes more.
 */
#define RIGHTS_STACK_JUDGE 40960
#define RIGHTS_STACK_ENTRY 40960
#define RIGHTS_STACK_MATRIX 40960
#define RIGHTS_STACK_LIST 49152
#define RIGHTS_STACK_ATOMS 16384
#define RIGHTS_STACK_READ 16384
#define RIGHTS_STACK_PACK 16384
#define RIGHTS_STACK_VERSION 4096

/* What a call answers, 32 bytes without gaps. Fields that a kind doesn't mention are 0. */
typedef struct rights_reply {
    uint32_t kind;   /* one of the kinds below */
    uint32_t number; /* of a refusal, 1 to 17 */
    uint64_t a, b, c;
} rights_reply;

#define RIGHTS_LAYOUT                                                                        \
    (sizeof(size_t) == 8 && sizeof(rights_reply) == 32 && offsetof(rights_reply, kind) == 0 \
     && offsetof(rights_reply, number) == 4 && offsetof(rights_reply, a) == 8               \
     && offsetof(rights_reply, b) == 16 && offsetof(rights_reply, c) == 24)
#if defined(__cplusplus)
#if __cplusplus >= 201103L
static_assert(RIGHTS_LAYOUT, "rights_reply isn't laid out as the library has it");
#endif
#elif defined(__STDC_VERSION__) && __STDC_VERSION__ >= 201112L
_Static_assert(RIGHTS_LAYOUT, "rights_reply isn't laid out as the library has it");
#endif
#undef RIGHTS_LAYOUT

/*
 * The bytes of boxes. Draw groups with 2 and folders with 3: drawn with 0 or 1, they turn into a
 * user or a file when the last box in them is gone. As long as a box is the outer one of a row, it
 * makes no difference; a box of byte 0 around empty groups only is no user either. An arrow at an
 * empty group or folder is no fault: it has its number and needs its place in the list's buffer,
 * but reaches no pair.
 */
enum {
    RIGHTS_USER = 0,  /* user side */
    RIGHTS_FILE = 1,  /* file side */
    RIGHTS_GROUP = 2, /* user side, never atomic */
    RIGHTS_FOLDER = 3 /* file side, never atomic */
};

/*
 * Kinds. DENIED, GRANTED and UNCLEAR are the bytes of the matrix too; there DENIED also stands
 * for denied by default. A reply of zeros reads denied.
 */
enum {
    RIGHTS_DENIED = 0,            /* a: the lowest-numbered certificate, a negative arrow */
    RIGHTS_GRANTED = 1,           /* a: the lowest-numbered certificate, a positive arrow */
    RIGHTS_UNCLEAR = 2,           /* a: lowest positive arrow reaching the pair, b: negative */
    RIGHTS_DENIED_BY_DEFAULT = 3, /* no arrow of the mode reaches the pair */
    RIGHTS_REFUSED = 4,           /* number: which refusal; a, b, c: its three numbers */
    RIGHTS_DONE = 5               /* a, b, c: see the call */
};

/*
 * Refusals and their numbers (a, b, c); what isn't named is 0.
 * Tables are 0 boxes, 1 containments, 2 arrows. A call on tables names the lowest number that
 * applies, and within it the lowest table, row, box or buffer.
 */
enum {
    RIGHTS_RAGGED = 1,          /* rows_len odd, arrows_len no multiple of 4: table, length */
    RIGHTS_TOO_MANY_ROWS = 2,   /* table, count of rows */
    RIGHTS_BOX_BYTE = 3,        /* a box byte above 3: box */
    RIGHTS_NO_SUCH_BOX = 4,     /* a containment names a box that isn't there: row */
    RIGHTS_ACROSS_SIDES = 5,    /* a containment across sides: row */
    RIGHTS_ARROW_ENDS = 6,      /* tail not on the user side or head not on the file side: row */
    RIGHTS_MODE_OR_SIGN = 7,    /* an arrow's mode above 7 or sign above 1: row */
    RIGHTS_ASKED_MODE = 8,      /* the asked mode is above 7: mode */
    RIGHTS_BUFFER_SHORT = 9,    /* buffer (see below), length needed, in elements */
    RIGHTS_CONTAINS_ITSELF = 10, /* the lowest box that contains itself: box */
    RIGHTS_NOT_ATOMIC = 11,     /* asked user or file no atomic box of its side: user, file */
    RIGHTS_UNCLEAR_PAIR = 12,   /* mode, user, file of the first unclear pair */
    RIGHTS_NO_ORDER = 13,       /* mode, user, file of a granted pair: see rights_list */
    RIGHTS_FILE_LENGTH = 14,    /* 0, no multiple of 512 or above 32,768: length */
    RIGHTS_BLOCK_CHECK = 15,    /* block */
    RIGHTS_BLOCK_HEAD = 16,     /* block */
    RIGHTS_FILLER = 17          /* filler not zero: block */
};

/* Buffers named by refusal 9. */
enum {
    RIGHTS_SCRATCH = 0,
    RIGHTS_MATRIX_BYTES = 1,
    RIGHTS_MATRIX_NUMBERS = 2,
    RIGHTS_LIST = 3,
    RIGHTS_WORK = 4,
    RIGHTS_BOXES = 5,
    RIGHTS_CONTAINMENTS = 6,
    RIGHTS_ARROWS = 7,
    RIGHTS_PACKED_FILE = 8,
    RIGHTS_ATOMIC_USERS = 11,
    RIGHTS_ATOMIC_FILES = 12
};

/*
 * The bytes of the scratch: byte a * n + b is about boxes a and b. A row drawn twice is one row;
 * boxes joined directly and through others are joined directly.
 */
enum {
    RIGHTS_NOT_CONTAINED = 0,            /* a doesn't contain b */
    RIGHTS_CONTAINED_THROUGH_OTHERS = 1, /* a contains b, and no row joins them */
    RIGHTS_CONTAINED_DIRECTLY = 2        /* a row has a as outer box and b as inner */
};

/* Stands for "no arrow" in the matrix numbers, and in the list after refusal 13. */
#define RIGHTS_NO_ARROW 65535

/*
 * Judges a picture.
 *   Asks     scratch of n * n bytes.
 *   Answers  DONE if no pair is unclear in any mode. Otherwise, or on a fault, REFUSED by the
 *            first of 1 to 7, 9, 10, 12; 12 names the first unclear pair by mode, user, file.
 *   Leaves   scratch filled after DONE, 10 and 12, untouched after 1 to 9.
 */
rights_reply rights_judge(
    const uint8_t *boxes, size_t boxes_len,
    const uint16_t *rows, size_t rows_len,
    const uint16_t *arrows, size_t arrows_len,
    uint8_t *scratch, size_t scratch_len);

/*
 * Answers for one user, file and mode.
 *   Asks     an atomic user box, an atomic file box, a mode 0 to 7; scratch of n * n bytes.
 *   Answers  GRANTED, DENIED, DENIED_BY_DEFAULT or UNCLEAR with their arrows, or REFUSED by the
 *            first of 1 to 11.
 *   Leaves   scratch filled after an answer, 10 and 11, untouched after 1 to 9.
 */
rights_reply rights_entry(
    const uint8_t *boxes, size_t boxes_len,
    const uint16_t *rows, size_t rows_len,
    const uint16_t *arrows, size_t arrows_len,
    uint16_t user, uint16_t file, uint16_t mode,
    uint8_t *scratch, size_t scratch_len);

/*
 * Fills the matrix of one mode.
 *   Asks     a mode 0 to 7; scratch of n * n bytes; bytes and numbers of a place for each pair.
 *   Answers  DONE, or REFUSED by the first of 1 to 10.
 *   Leaves   after DONE, for each pair in order: in bytes RIGHTS_DENIED, RIGHTS_GRANTED or
 *            RIGHTS_UNCLEAR; in numbers the arrow of the answer, RIGHTS_NO_ARROW for default and
 *            unclear. Scratch is filled after DONE and 10. A refusal leaves bytes and numbers
 *            untouched, and 1 to 9 scratch too.
 *   Note     the pair of the i-th atomic user and the j-th atomic file, both from 0, stands at
 *            place i * f + j for f atomic files. rights_atoms names users and files.
 */
rights_reply rights_matrix(
    const uint8_t *boxes, size_t boxes_len,
    const uint16_t *rows, size_t rows_len,
    const uint16_t *arrows, size_t arrows_len,
    uint16_t mode,
    uint8_t *scratch, size_t scratch_len,
    uint8_t *bytes, size_t bytes_len,
    uint16_t *numbers, size_t numbers_len);

/*
 * Writes the first-match list of one mode.
 *   A list is any sequence of arrows of the mode, the empty one and those with repeats included.
 *   It reaches a pair if one of its arrows does. It is honest if each pair that it reaches gets
 *   the picture's answer from the first arrow in the list that reaches the pair: a positive
 *   arrow gives granted, a negative one denied. At each place of the list that is written
 *   stands the lowest-numbered arrow of the mode that can follow while the list stays honest
 *   and that reaches a pair nothing earlier reached; the list ends when there is none. So a mode
 *   of one picture has one list, on every machine. It is honest, has no arrow twice, of repeated
 *   arrows only the lowest number, and reaches every granted pair. Arrows that only deny stand in
 *   it too.
 *   Asks     a mode 0 to 7; scratch of n * n bytes; list of a place for each arrow of the mode;
 *            work of a byte for each pair.
 *   Answers  DONE with a, the count of arrows in the list, or REFUSED by the first of 1 to 10,
 *            12, 13. 12 is about the asked mode only. 13 says that no honest list reaches every
 *            granted pair of the mode, and names the first granted pair, by user, then file, that
 *            no honest list whatever reaches.
 *   Leaves   after DONE the list in the first a places, the rest of list untouched. After 13
 *            the needed list places hold RIGHTS_NO_ARROW. After DONE and 13 the needed work
 *            bytes are 0. Scratch is filled after DONE, 10, 12 and 13. Everything else stays.
 */
rights_reply rights_list(
    const uint8_t *boxes, size_t boxes_len,
    const uint16_t *rows, size_t rows_len,
    const uint16_t *arrows, size_t arrows_len,
    uint16_t mode,
    uint8_t *scratch, size_t scratch_len,
    uint16_t *list, size_t list_len,
    uint8_t *work, size_t work_len);

/*
 * Names the atomic users and files: what the rows and columns of the matrix stand for.
 *   Asks     users of a place for each atomic user, files of a place for each atomic file.
 *   Answers  DONE with a, how many atomic users, and b, how many atomic files; or REFUSED by the
 *            first of 1 to 5, as for a picture without arrows, then 9.
 *   Leaves   after DONE the atomic users in the first a places of users and the atomic files in
 *            the first b places of files, both by rising number; places beyond them untouched. A
 *            refusal leaves both untouched.
 *   Note     10 is not checked here: which boxes are atomic goes by bytes and rows alone.
 */
rights_reply rights_atoms(
    const uint8_t *boxes, size_t boxes_len,
    const uint16_t *rows, size_t rows_len,
    uint16_t *users, size_t users_len,
    uint16_t *files, size_t files_len);

/*
 * Reads a block file into three tables.
 *   Asks     the whole file; boxes, rows and arrows as long as what the file holds (1, 2 and 4
 *            numbers a row; RIGHTS_BOXES_ROOM, RIGHTS_ROWS_ROOM and RIGHTS_ARROWS_ROOM always
 *            suffice).
 *   Answers  DONE with a boxes, b containments, c arrows: counts of rows, not the lengths that
 *            the other calls take. Hand on rights_boxes_len, rights_rows_len and
 *            rights_arrows_len of the reply. Or REFUSED by 14, then for each block in turn 15,
 *            16, 17, then 2, then 9.
 *   Leaves   after DONE the rows in the three tables, places beyond them untouched. A refusal
 *            leaves all three untouched. What the rows say, box bytes included, is not checked
 *            here.
 *   Note     no block says how many there are: a file that is cut at the end of a block is a good
 *            file with fewer rows. Know its length, or hold the three counts against your own.
 */
rights_reply rights_read(
    const uint8_t *file, size_t file_len,
    uint8_t *boxes, size_t boxes_len,
    uint16_t *rows, size_t rows_len,
    uint16_t *arrows, size_t arrows_len);

/*
 * Packs a picture into a block file.
 *   There is one packing of a picture: box blocks, then containment blocks, then arrow blocks,
 *   those of each kind full but the last, none empty, except that a picture without boxes has one
 *   box block of count 0. Rows keep their order, repeated ones included. Two pictures have the
 *   same packed bytes only if their tables are equal.
 *   Asks     file of as many bytes as the packed file has, 512 a block: one block for the boxes,
 *            one for each 125 containments and one for each 83 arrows, begun ones included.
 *            RIGHTS_PACKED_ROOM always suffices.
 *   Answers  DONE with a, the length of the packed file in bytes, or REFUSED by the first of 1 to
 *            7, 9. A picture with a box that contains itself is packed.
 *   Leaves   after DONE the packed file in the first a bytes, bytes beyond them untouched. A
 *            refusal leaves file untouched.
 *   Note     write a bytes, not file_len. rights_read returns the same three tables from them.
 */
rights_reply rights_pack(
    const uint8_t *boxes, size_t boxes_len,
    const uint16_t *rows, size_t rows_len,
    const uint16_t *arrows, size_t arrows_len,
    uint8_t *file, size_t file_len);

/* The version of the library: RIGHTS_VERSION of the header that belongs to it. */
uint32_t rights_version(void);

/*
 * The lengths of the tables that rights_read filled, in elements, as the other calls take them.
 * 0 if it refused.
 */
static inline size_t rights_boxes_len(rights_reply read) {
    return read.kind == RIGHTS_DONE ? (size_t)read.a : 0;
}

static inline size_t rights_rows_len(rights_reply read) {
    return read.kind == RIGHTS_DONE ? 2 * (size_t)read.b : 0;
}

static inline size_t rights_arrows_len(rights_reply read) {
    return read.kind == RIGHTS_DONE ? 4 * (size_t)read.c : 0;
}

/* A short name for each refusal. */
static inline const char *rights_refusal_name(uint32_t number) {
    static const char *const names[] = {
        "no refusal",
        "ragged table",
        "too many rows",
        "box byte above 3",
        "containment of a box that isn't there",
        "containment across sides",
        "arrow not from the user side to the file side",
        "arrow mode above 7 or sign above 1",
        "asked mode above 7",
        "buffer too short",
        "box contains itself",
        "asked user or file not atomic",
        "unclear pair",
        "no order",
        "file length",
        "block check wrong",
        "block head wrong",
        "filler not zero",
    };
    return number < sizeof names / sizeof names[0] ? names[number] : "unknown refusal";
}

/* A short name for each buffer that refusal 9 names: a of its reply. */
static inline const char *rights_buffer_name(uint64_t buffer) {
    switch (buffer) {
    case RIGHTS_SCRATCH: return "scratch";
    case RIGHTS_MATRIX_BYTES: return "matrix bytes";
    case RIGHTS_MATRIX_NUMBERS: return "matrix numbers";
    case RIGHTS_LIST: return "list";
    case RIGHTS_WORK: return "work";
    case RIGHTS_BOXES: return "boxes";
    case RIGHTS_CONTAINMENTS: return "containments";
    case RIGHTS_ARROWS: return "arrows";
    case RIGHTS_PACKED_FILE: return "packed file";
    case RIGHTS_ATOMIC_USERS: return "atomic users";
    case RIGHTS_ATOMIC_FILES: return "atomic files";
    default: return "unknown buffer";
    }
}

#ifdef __cplusplus
}
#endif

#endif
