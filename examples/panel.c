/* A panel's questions to one font: panel FILE CODE LEFT RIGHT prints the verdict with its findings, the lengths of the character CODE, and what
 * becomes of the pair LEFT RIGHT. Codes are decimal; LEFT is 256 for the left boundary. Refusals are answers too: the status is 0 wherever
 * the font could be asked, and 2 where the arguments, the file or the memory stand against it. */
#include <inttypes.h>
#include <stdbool.h>
#include <stdio.h>
#include <stdlib.h>
#include <string.h>

#include "nyelgomir.h"

struct font {
    uint8_t *bytes;
    size_t len;
};

/* What is lent to each question, large enough for every answer. */
struct lent {
    uint8_t *copy;
    size_t copy_len;
    uint8_t *findings;
    size_t findings_len;
    uint32_t *pairs;
};

static bool is_code(const char *text, uint32_t *code)
{
    size_t digits = strspn(text, "0123456789");
    if (digits == 0 || digits > 10 || text[digits] != '\0')
        return false;
    unsigned long long value = strtoull(text, NULL, 10);
    *code = (uint32_t)value;
    return value <= UINT32_MAX;
}

/* Twice the room and some more; the bytes that are there stay. */
static bool grow(struct font *font, size_t *room)
{
    size_t more = *room * 2 + 4096;
    uint8_t *bytes = realloc(font->bytes, more);
    if (bytes == NULL)
        return false;
    font->bytes = bytes;
    *room = more;
    return true;
}

/* Reads to the end: a file is not measured beforehand, so that it may be a pipe too. */
static bool read_all(FILE *in, struct font *font)
{
    size_t room = 0;
    do {
        if (font->len == room && !grow(font, &room))
            return false;
        font->len += fread(font->bytes + font->len, 1, room - font->len, in);
    } while (!feof(in) && !ferror(in));
    return !ferror(in);
}

static bool load(const char *name, struct font *font)
{
    FILE *in = fopen(name, "rb");
    if (in == NULL)
        return false;
    bool read = read_all(in, font);
    fclose(in);
    return read;
}

/* At least one byte each, so that no pointer is NULL: of a refused file lf is 0. */
static bool lend(const struct font *font, struct lent *lent)
{
    uint16_t sizes[NYELGOMIR_SIZES];
    nyelgomir_sizes(font->bytes, font->len, sizes);
    lent->copy_len = NYELGOMIR_COPY_BYTES(sizes[NYELGOMIR_LF]);
    lent->findings_len = NYELGOMIR_FINDINGS_BYTES(sizes[NYELGOMIR_LF]);
    lent->copy = calloc(lent->copy_len + 1, 1);
    lent->findings = calloc(lent->findings_len, 1);
    lent->pairs = calloc(NYELGOMIR_PAIR_ENTRIES, sizeof *lent->pairs);
    return lent->copy != NULL && lent->findings != NULL && lent->pairs != NULL;
}

static void take_back(struct lent *lent)
{
    free(lent->copy);
    free(lent->findings);
    free(lent->pairs);
}

static void print_text(const uint8_t *text, size_t len)
{
    fwrite(text, 1, len, stdout);
    putchar('\n');
}

static void print_refusal(uint8_t number)
{
    uint8_t text[NYELGOMIR_SENTENCE_BYTES];
    size_t len = nyelgomir_number_words(number, text, sizeof text);
    printf("refused with %d: ", number);
    print_text(text, len);
}

static uint16_t half(const uint8_t *bytes)
{
    return (uint16_t)(256 * bytes[0] + bytes[1]);
}

static void print_finding(const uint8_t *record)
{
    uint8_t text[NYELGOMIR_SENTENCE_BYTES];
    size_t len = nyelgomir_finding_words(record[0], half(record + 3), half(record + 5), text, sizeof text);
    printf("  %d: ", record[0]);
    print_text(text, len);
}

static void print_verdict(const struct font *font, struct lent *lent)
{
    size_t answer[2];
    uint8_t number = nyelgomir_verdict(font->bytes, font->len, lent->copy, lent->copy_len, lent->findings, lent->findings_len, lent->pairs,
                                       NYELGOMIR_PAIR_ENTRIES, answer);
    printf("verdict: ");
    if (number != NYELGOMIR_ACCEPTED) {
        print_refusal(number);
        return;
    }
    uint8_t text[NYELGOMIR_SENTENCE_BYTES];
    size_t len = nyelgomir_verdict_words((uint8_t)answer[0], text, sizeof text);
    print_text(text, len);
    printf("findings: %zu\n", answer[1] / NYELGOMIR_FINDING_BYTES);
    for (size_t at = 0; at < answer[1]; at += NYELGOMIR_FINDING_BYTES)
        print_finding(lent->findings + at);
}

/* Twenty places show a length whole, since it is a number of parts of 1,048,576. */
static void print_length(const char *name, double length)
{
    uint64_t bits;
    memcpy(&bits, &length, sizeof bits);
    printf("  %s %.20f, bits %016" PRIx64 "\n", name, length, bits);
}

static void print_lengths(const struct font *font, uint32_t code)
{
    double lengths[NYELGOMIR_EYE_LENGTHS];
    uint8_t number = nyelgomir_eye_lengths(font->bytes, font->len, code, lengths);
    printf("character %" PRIu32 ": ", code);
    if (number != NYELGOMIR_ACCEPTED) {
        print_refusal(number);
        return;
    }
    puts("its lengths");
    print_length("width", lengths[NYELGOMIR_EYE_WIDTH]);
    print_length("height", lengths[NYELGOMIR_EYE_HEIGHT]);
    print_length("depth", lengths[NYELGOMIR_EYE_DEPTH]);
    print_length("italic", lengths[NYELGOMIR_EYE_ITALIC]);
}

static void print_pair(const struct font *font, struct lent *lent, uint32_t left, uint32_t right)
{
    uint32_t answer[2];
    uint8_t number =
        nyelgomir_pair(font->bytes, font->len, left, right, lent->copy, lent->copy_len, lent->pairs, NYELGOMIR_PAIR_ENTRIES, answer);
    printf("pair %" PRIu32 " %" PRIu32 ": ", left, right);
    if (number != NYELGOMIR_ACCEPTED)
        print_refusal(number);
    else if (answer[0] == NYELGOMIR_LOOPS)
        puts("its rewriting never ends");
    else
        printf("leaves %" PRIu32 "\n", answer[1]);
}

static int fail(const char *what)
{
    fprintf(stderr, "panel: %s\n", what);
    return 2;
}

static int ask(const struct font *font, uint32_t code, uint32_t left, uint32_t right)
{
    struct lent lent = {0};
    bool enough = lend(font, &lent);
    if (enough) {
        print_verdict(font, &lent);
        print_lengths(font, code);
        print_pair(font, &lent, left, right);
    }
    take_back(&lent);
    if (!enough)
        return fail("there is not enough memory");
    return fflush(stdout) == 0 ? 0 : fail("the answers cannot be written");
}

int main(int argc, char **argv)
{
    uint32_t code, left, right;
    if (argc != 5 || !is_code(argv[2], &code) || !is_code(argv[3], &left) || !is_code(argv[4], &right))
        return fail("usage: panel FILE CODE LEFT RIGHT, with codes in decimal");
    struct font font = {0};
    int status = load(argv[1], &font) ? ask(&font, code, left, right) : fail("the file cannot be read");
    free(font.bytes);
    return status;
}
