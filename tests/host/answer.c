/* Reads answers by nuldwich_answer_next: those of the tickets named as arguments, each cut at every length, and with every bit of its first bytes changed. Each stands
   in memory of exactly its length, so that a sanitizer sees a read outside. What is read is held against a plain reading. The last line is 'N passed, M failed'. */

#include <stdio.h>
#include <stdlib.h>
#include <string.h>

#include "nuldwich.h"

/* Of an answer so many bytes are changed, bit by bit: the first records' heads are among them. */
#define CHANGED 64

static unsigned passed, failed, whole, cut;

static void count(int good, const char *what) {
    if (good) {
        passed++;
    } else {
        failed++;
        printf("answer: %s\n", what);
    }
}

/* What nuldwich_answer_next is to return, by a plain reading with a wide offset. */
static int due(const uint8_t *bytes, uint64_t length, uint64_t at) {
    uint64_t body, kind;
    if (at + 6 > length)
        return -1;
    body = bytes[at] + 256ull * bytes[at + 1] + 65536ull * bytes[at + 2] + 16777216ull * bytes[at + 3];
    kind = bytes[at + 4] + 256ull * bytes[at + 5];
    if (at + 6 + body > length || body % 4 != 0)
        return -1;
    return kind == 8 ? (body == 0 ? 0 : -1) : (kind == 9 || kind == 10 ? 1 : -1);
}

/* Whether a record's values are the bytes that stand there. */
static int values_hold(nuldwich_answer_record record, const uint8_t *body, size_t length) {
    int good = record.count == length / 4 && nuldwich_answer_character(record, record.count) == 0 && nuldwich_answer_integer(record, UINT64_MAX) == 0;
    for (uint64_t k = 0; k < record.count; k++) {
        int64_t value = 0;
        for (int byte = 3; byte >= 0; byte--)
            value = 256 * value + body[4 * k + (unsigned)byte];
        good &= nuldwich_answer_character(record, k) == (uint64_t)value;
        good &= nuldwich_answer_integer(record, k) == (value > INT32_MAX ? value - 4294967296 : value);
    }
    return good;
}

/* Reads bytes to their end, in memory of exactly this length. */
static int read_as_due(const uint8_t *bytes, size_t length) {
    uint8_t *exact = (uint8_t *)calloc(length > 0 ? length : 1, 1);
    nuldwich_answer_record record = {0, 0, NULL};
    size_t offset = 0, before = 0;
    int good = exact != NULL, said = 1;
    if (exact == NULL)
        return 0;
    memcpy(exact, bytes, length);
    while (said > 0) {
        before = offset;
        said = nuldwich_answer_next(length > 0 ? exact : NULL, length, &offset, &record);
        good &= said == due(exact, length, before) && (said < 0) == (offset == before);
        if (said > 0)
            good &= values_hold(record, exact + before + 6, offset - before - 6) && record.kind == exact[before + 4];
    }
    whole += said == 0;
    cut += said < 0;
    offset = length + 1;
    good &= nuldwich_answer_next(exact, length, &offset, &record) == -1 && offset == length + 1;
    free(exact);
    return good;
}

/* The answer of a ticket in a file, and its length; 0 where it has none. */
static size_t answer_of(const char *path, uint8_t *answer) {
    static uint8_t ticket[NULDWICH_TICKET_BYTES + 1];
    nuldwich_answer_record record;
    size_t offset = 0;
    FILE *file = fopen(path, "rb");
    if (file == NULL) {
        perror(path);
        exit(2);
    }
    nuldwich_reply reply = nuldwich_check(ticket, fread(ticket, 1, sizeof ticket, file), answer, NULDWICH_ANSWER_BYTES);
    fclose(file);
    if (reply.number != NULDWICH_DONE || reply.record != NULDWICH_STRINGS)
        return 0;
    while (nuldwich_answer_next(answer, NULDWICH_ANSWER_BYTES, &offset, &record) > 0)
        continue;
    return offset;
}

int main(int argc, char **argv) {
    static uint8_t answer[NULDWICH_ANSWER_BYTES];
    int at_lengths = 1, at_bits = 1;
    for (int argument = 1; argument < argc; argument++) {
        size_t length = answer_of(argv[argument], answer);
        for (size_t less = 0; less <= length; less++)
            at_lengths &= read_as_due(answer, less);
        for (size_t bit = 0; bit < 8 * length && bit < 8 * CHANGED; bit++) {
            answer[bit / 8] ^= (uint8_t)(1u << bit % 8);
            at_bits &= read_as_due(answer, length);
            answer[bit / 8] ^= (uint8_t)(1u << bit % 8);
        }
    }
    count(at_lengths, "an answer that is cut is read otherwise than is said");
    count(at_bits, "an answer that is changed is read otherwise than is said");
    count(whole > 100 && cut > 100, "too few answers were read");
    printf("%u passed, %u failed\n", passed, failed);
    return failed != 0;
}
