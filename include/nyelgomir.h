/* Nyelgomir for C and C++: TeX font metric (TFM) files read exactly, by the functions of libpanel.a, which is for x86-64.
 *
 * What these functions do is proved, for every content of the buffers. They allocate, keep and free nothing and have no global state: a buffer
 * is the caller's before and after a call, and calls on different buffers may run at once. What the caller must keep is all of this:
 *
 *   - a pointer is valid for the length beside it, or for the array that its type names, and writable unless it is const;
 *   - it is aligned for its type, and it is not NULL even where the length is 0 (a length of 0 is legal);
 *   - writable buffers hold any values, and none of them overlaps another buffer of the same call;
 *   - no other thread writes a buffer of the call, or reads a writable one, while the call runs;
 *   - the stack has room. nyelgomir_verdict, _listing and _pair take less than 224 KiB and 64 bytes for each pair that is being settled at
 *     once, at most NYELGOMIR_PAIR_ENTRIES of them: 4.5 MB in all, which a thread must be given where its stack is smaller.
 *     The other functions take less than 4 KiB. (Measured, docs/BENCH.md; a proof says nothing of the stack.)
 *
 * An answer is one of the numbers of enum nyelgomir_number. NYELGOMIR_ACCEPTED is 0; every other refuses, and then the answer arrays (sizes,
 * part, answer, lengths) are all zeros. The lent buffers (copy, findings, pairs, listing) after a refusal:
 *
 *   - 14, 15 and 16, a pair room, findings or listing that is too small, leave each of them all zeros, whole;
 *   - every other refusal leaves each of them as it was found.
 *
 * After acceptance copy begins with the 4 * lf bytes of the mended file, findings and listing begin with theirs, bytes after those keep their
 * values, and the pair room is all zeros. Characters are codes 0 to 255; the left code of a pair is also NYELGOMIR_LEFT_BOUNDARY. */
#ifndef NYELGOMIR_H
#define NYELGOMIR_H

#include <stddef.h>
#include <stdint.h>

#ifdef __cplusplus
extern "C" {
#endif

/* The number of an answer. The tests are made in the order 1 to 12, 17, 18, 13 to 16, and the first that holds is the answer. */
enum nyelgomir_number {
    NYELGOMIR_ACCEPTED = 0,
    NYELGOMIR_NO_BYTES = 1,               /* the file has no bytes */
    NYELGOMIR_FIRST_BYTE_OVER_127 = 2,    /* its first byte exceeds 127 */
    NYELGOMIR_ONE_BYTE = 3,               /* it has one byte */
    NYELGOMIR_NO_WORDS = 4,               /* lf is 0 */
    NYELGOMIR_FEWER_BYTES_THAN_LF = 5,    /* it has fewer than 4 * lf bytes */
    NYELGOMIR_FEWER_THAN_SIX_WORDS = 6,   /* lf is below 6 */
    NYELGOMIR_SIZE_OVER_32767 = 7,        /* another size has a first byte over 127 */
    NYELGOMIR_HEADER_TOO_SHORT = 8,       /* lh is below 2 */
    NYELGOMIR_CODE_RANGE = 9,             /* bc > ec + 1, or ec > 255 */
    NYELGOMIR_EMPTY_LENGTH_TABLE = 10,    /* nw, nh, nd or ni is 0 */
    NYELGOMIR_OVER_256_RECIPES = 11,      /* ne exceeds 256 */
    NYELGOMIR_SIZES_DO_NOT_ADD_UP = 12,   /* lf is not 6 + lh + (ec - bc + 1) + nw + nh + nd + ni + nl + nk + ne + np */
    NYELGOMIR_COPY_TOO_SHORT = 13,        /* copy has fewer than 4 * lf bytes */
    NYELGOMIR_PAIR_ROOM_TOO_SMALL = 14,   /* pairs has fewer entries than the mended program has distinct pairs */
    NYELGOMIR_FINDINGS_TOO_SHORT = 15,    /* the findings need more bytes than are lent */
    NYELGOMIR_LISTING_TOO_SHORT = 16,     /* the listing needs more bytes than are lent */
    NYELGOMIR_ARGUMENT_OUT_OF_RANGE = 17, /* a subfile over 9, a left code over 256, a right code or a character over 255 */
    NYELGOMIR_NO_SUCH_CHARACTER = 18      /* the file has no such character */
};

/* The verdict, answer[0] of nyelgomir_verdict and nyelgomir_listing. */
enum nyelgomir_verdict_kind {
    NYELGOMIR_NO_VERDICT = 0, /* the file or a buffer is refused */
    NYELGOMIR_CLEAN = 1,      /* nothing is found but remarks (findings 1 and 6) */
    NYELGOMIR_MENDED = 2,     /* something else is found, and no loop */
    NYELGOMIR_LOOPING = 3     /* the rewriting of some pair never ends (finding 18) */
};

/* The outcome of a pair, answer[0] of nyelgomir_pair. */
enum nyelgomir_outcome {
    NYELGOMIR_NO_OUTCOME = 0, /* the file, an argument or a buffer is refused */
    NYELGOMIR_LEAVES = 1,     /* the pair settles, and leaves the code answer[1] left of the cursor */
    NYELGOMIR_LOOPS = 2       /* the rewriting of the pair never ends */
};

/* The subfiles, the argument k of nyelgomir_subfile. */
enum nyelgomir_subfile_number {
    NYELGOMIR_HEADER = 0,
    NYELGOMIR_CHAR_INFO = 1,
    NYELGOMIR_WIDTH = 2,
    NYELGOMIR_HEIGHT = 3,
    NYELGOMIR_DEPTH = 4,
    NYELGOMIR_ITALIC = 5,
    NYELGOMIR_LIG_KERN = 6,
    NYELGOMIR_KERN = 7,
    NYELGOMIR_EXTEN = 8,
    NYELGOMIR_PARAM = 9
};

/* The sizes in file order, in the array of nyelgomir_sizes. */
enum nyelgomir_size {
    NYELGOMIR_LF = 0,  /* words of the whole file */
    NYELGOMIR_LH = 1,  /* words of header */
    NYELGOMIR_BC = 2,  /* smallest code */
    NYELGOMIR_EC = 3,  /* largest code */
    NYELGOMIR_NW = 4,  /* words of width */
    NYELGOMIR_NH = 5,  /* words of height */
    NYELGOMIR_ND = 6,  /* words of depth */
    NYELGOMIR_NI = 7,  /* words of italic */
    NYELGOMIR_NL = 8,  /* words of lig_kern */
    NYELGOMIR_NK = 9,  /* words of kern */
    NYELGOMIR_NE = 10, /* words of exten */
    NYELGOMIR_NP = 11, /* words of param */
    NYELGOMIR_SIZES = 12
};

/* The four lengths, in the array of nyelgomir_eye_lengths. */
enum nyelgomir_length { NYELGOMIR_EYE_WIDTH = 0, NYELGOMIR_EYE_HEIGHT = 1, NYELGOMIR_EYE_DEPTH = 2, NYELGOMIR_EYE_ITALIC = 3, NYELGOMIR_EYE_LENGTHS = 4 };

/* The left code of a pair at the beginning of a word. */
enum { NYELGOMIR_LEFT_BOUNDARY = 256 };

/* A finding is a record of seven bytes: the tag, a two-byte length (4), and two 16-bit numbers, high byte first. Records stand in ascending
 * order of tag, first and second number, each once. The comments name the two numbers, where they are not 0. Strings are 0 coding scheme and
 * 1 family; tables are 0 width, 1 height, 2 depth, 3 italic, 4 kern; pieces are 0 top, 1 middle, 2 bottom, 3 repeater. */
enum nyelgomir_finding {
    NYELGOMIR_JUNK_AT_END = 1,           /* bytes after the 4 * lf of the file: a remark */
    NYELGOMIR_STRING_TOO_LONG = 2,       /* string: its length is made 1 */
    NYELGOMIR_PARENTHESIS_IN_STRING = 3, /* string, byte: made a slash */
    NYELGOMIR_ODD_BYTE_IN_STRING = 4,    /* string, byte: made a question mark */
    NYELGOMIR_BAD_DESIGN_SIZE = 5,       /* negative or under 1: listed as 10, bytes kept */
    NYELGOMIR_PARAMETER_COUNT = 6,       /* np: unusual for a mathematics font; a remark */
    NYELGOMIR_PARAMETER_TOO_BIG = 7,     /* parameter, from 2 on: set to zero */
    NYELGOMIR_ENTRY_0_NOT_ZERO = 8,      /* table: kept */
    NYELGOMIR_ENTRY_TOO_BIG = 9,         /* table, entry: set to zero */
    NYELGOMIR_BAD_BOUNDARY_START = 10,   /* the left boundary's program is not in the table: ignored */
    NYELGOMIR_BAD_START = 11,            /* character: its program is not in the table; tag set to 0 */
    NYELGOMIR_SKIPS_TOO_FAR = 12,        /* step: made to stop */
    NYELGOMIR_BAD_ADDRESS = 13,          /* step: kept */
    NYELGOMIR_STEP_FOR_MISSING = 14,     /* step: its right code is made bc, or 0 where bc is 256 */
    NYELGOMIR_LIGATURE_TO_MISSING = 15,  /* step: its ligature is made bc, or 0 where bc is 256 */
    NYELGOMIR_BAD_KERN_INDEX = 16,       /* step: listed as a kern of 0, bytes kept */
    NYELGOMIR_ODD_LIGATURE_CODE = 17,    /* step: made 0 */
    NYELGOMIR_LOOP = 18,                 /* left, right: the smallest pair whose rewriting never ends */
    NYELGOMIR_PIECE_MISSING = 19,        /* recipe, piece: set to 0, the repeater kept */
    NYELGOMIR_BAD_LENGTH_INDEX = 20,     /* character, table: bytes kept */
    NYELGOMIR_LINK_TO_MISSING = 21,      /* character: tag set to 0 */
    NYELGOMIR_LINK_CYCLE = 22,           /* character, the largest of its cycle: tag set to 0 */
    NYELGOMIR_BAD_RECIPE_NUMBER = 23     /* character: tag set to 0 */
};
enum { NYELGOMIR_FINDING_BYTES = 7 };

/* Sizes that always suffice, for a file of lf words (at most NYELGOMIR_LARGEST_LF, which is 131,068 bytes): with these an accepted file is never
 * refused with 13, 14 or 15, which is proved (never_short, crates/judge/proofs/Enough.antt). No such size is given for a listing, which can have
 * hundreds of megabytes: begin with what you can spare, and lend more after NYELGOMIR_LISTING_TOO_SHORT. */
#define NYELGOMIR_LARGEST_LF 32767
#define NYELGOMIR_COPY_BYTES(lf) (4 * (size_t)(lf))
#define NYELGOMIR_FINDINGS_BYTES(lf) (42 * ((size_t)(lf) + 108))
#define NYELGOMIR_PAIR_ENTRIES 65792
#define NYELGOMIR_DECIMAL_BYTES 13
#define NYELGOMIR_SENTENCE_BYTES 160

/* The twelve sizes. Answers 0 to 12. */
uint8_t nyelgomir_sizes(const uint8_t *file, size_t file_len, uint16_t sizes[NYELGOMIR_SIZES]);

/* Where the subfile k lies in the file: part[0] is the offset of its first byte, part[1] how many bytes it has. Answers 0 to 12 and 17. */
uint8_t nyelgomir_subfile(const uint8_t *file, size_t file_len, uint32_t k, size_t part[2]);

/* The verdict, with the findings and the mended copy: answer[0] is the verdict, answer[1] how many bytes of findings there are.
 * Answers 0 to 15. */
uint8_t nyelgomir_verdict(const uint8_t *file, size_t file_len, uint8_t *copy, size_t copy_len, uint8_t *findings, size_t findings_len,
                          uint32_t *pairs, size_t pairs_len, size_t answer[2]);

/* The verdict, and the property list that TFtoPL writes: answer[2] is how many bytes of listing there are, which no NUL follows.
 * Answers 0 to 16. */
uint8_t nyelgomir_listing(const uint8_t *file, size_t file_len, uint8_t *copy, size_t copy_len, uint8_t *findings, size_t findings_len,
                          uint32_t *pairs, size_t pairs_len, uint8_t *listing, size_t listing_len, size_t answer[3]);

/* The decimal that TFtoPL prints for a stored word, and its length. The rest of text is zeros; all 13 bytes may be used, so that no NUL
 * follows. */
size_t nyelgomir_decimal(uint32_t word, uint8_t text[NYELGOMIR_DECIMAL_BYTES]);

/* What becomes of the pair left, right in the mended program: answer[0] is the outcome, answer[1] the code that is left of the cursor, 0
 * unless the outcome is NYELGOMIR_LEAVES. Answers 0 to 14 and 17. */
uint8_t nyelgomir_pair(const uint8_t *file, size_t file_len, uint32_t left, uint32_t right, uint8_t *copy, size_t copy_len, uint32_t *pairs,
                       size_t pairs_len, uint32_t answer[2]);

/* Width, height, depth and italic correction of a character, each exactly the signed stored word over 1,048,576.
 * Answers 0 to 12, 17 and 18. */
uint8_t nyelgomir_eye_lengths(const uint8_t *file, size_t file_len, uint32_t code, double lengths[NYELGOMIR_EYE_LENGTHS]);

/* English sentences for a finding, for the number of an answer and for a verdict, in ASCII with no NUL after them. The result is the length
 * of the sentence, or text_len + 1 where it does not fit; NYELGOMIR_SENTENCE_BYTES are enough for each. */
size_t nyelgomir_finding_words(uint8_t tag, uint16_t first, uint16_t second, uint8_t *text, size_t text_len);
size_t nyelgomir_number_words(uint8_t number, uint8_t *text, size_t text_len);
size_t nyelgomir_verdict_words(uint8_t verdict, uint8_t *text, size_t text_len);

#ifdef __cplusplus
}
#endif

#endif
