/* The C interface of nuldwich: checking solver tickets, saying beforehand how much that needs, judging answers, and telling whether two questions are the
   same. For C99 and C++11, and later. */

#ifndef NULDWICH_H
#define NULDWICH_H

#include <stddef.h>
#include <stdint.h>

#ifdef __cplusplus
extern "C" {
#endif

/*
 * The version, major * 1000 + minor, and in words. A program is compiled with the header that was installed with its library.
 *
 * always                   a constant keeps its value, a number of a reply its meaning, a field of a struct its name, its type and its place
 * at a new minor version   entries, constants and refusal numbers may come: a caller needs a default for numbers that it does not know.
 *                          What was accepted stays accepted, with the same answer, but the set of a "no solution" may become another one,
 *                          and questions that were the same may be different; what was refused may be accepted, or get another number
 * at a new major version   structs may get further fields after those they have, and what is accepted may change
 */
#define NULDWICH_VERSION 3002
#define NULDWICH_VERSION_STRING "3.2"

/* The version of the library that the program runs with. It may be a later minor version than that of this header. */
uint64_t nuldwich_version(void);

/*
 * The library's major version. It is in the name, and every source that includes this header asks for the symbol, so that a program does not link with a library
 * of another major version. A compiler that is neither GCC's nor Clang's kind does not ask.
 */
uint64_t nuldwich_major_3(void);
#if defined(__GNUC__)
__attribute__((used)) static uint64_t (*const nuldwich_major)(void) = nuldwich_major_3;
#endif

/* The least size of the answer buffer that nuldwich_check is lent, in bytes. It holds every answer. */
#define NULDWICH_ANSWER_BYTES 4268

/* The greatest size of a ticket or question, in bytes. */
#define NULDWICH_TICKET_BYTES 32768

/* The most facts that may stand on a branch, and the most splits that may be pending, for nuldwich_check to accept a ticket. */
#define NULDWICH_MOST_FACTS 128
#define NULDWICH_MOST_PENDING 64

/* The stack that a call uses at most, in bytes. No operation uses the heap. */
#define NULDWICH_CHECK_STACK_BYTES 81920
#define NULDWICH_JUDGE_STACK_BYTES 8192
#define NULDWICH_NEED_STACK_BYTES 32768
#define NULDWICH_SAME_STACK_BYTES 114688

/* Numbers of a reply that are no refusals. */
#define NULDWICH_DONE 0    /* nuldwich_check: the ticket is accepted; nuldwich_judge: all constraints are met; nuldwich_need: the
                              counts are there; nuldwich_same: both questions are read, and same is there */
#define NULDWICH_UNMET 255 /* nuldwich_judge: record names the lowest-numbered constraint that is not met */

/* Claims of an accepted ticket: the reply's record when nuldwich_check returns number 0. */
#define NULDWICH_NO_SOLUTION 1 /* no strings and integers meet the constraints */
#define NULDWICH_STRINGS 2     /* the answer stands in the answer buffer */

/* Kinds of an answer's records. */
#define NULDWICH_ANSWER_END 8
#define NULDWICH_ANSWER_STRING 9
#define NULDWICH_ANSWER_INTEGERS 10

/* Whose part nuldwich_judge shows. */
#define NULDWICH_SHOWN_QUESTION 0
#define NULDWICH_SHOWN_ANSWER 1

/* Which question nuldwich_same refuses. */
#define NULDWICH_WHICH_FIRST 1
#define NULDWICH_WHICH_SECOND 2

/* Refusals: other numbers of a reply. nuldwich_refusal says what each means. */
#define NULDWICH_REFUSED_BUFFER 1
#define NULDWICH_REFUSED_TICKET_LENGTH 2
#define NULDWICH_REFUSED_CUT 3
#define NULDWICH_REFUSED_KIND 4
#define NULDWICH_REFUSED_BODY_LENGTH 5
#define NULDWICH_REFUSED_RANGE 6
#define NULDWICH_REFUSED_LITERAL 7
#define NULDWICH_REFUSED_STEP 8
#define NULDWICH_REFUSED_NUMBER 9
#define NULDWICH_REFUSED_LIMIT 10
#define NULDWICH_REFUSED_OPEN 11
#define NULDWICH_REFUSED_MODEL 12
#define NULDWICH_REFUSED_LEAF 13
#define NULDWICH_REFUSED_STRING_LENGTH 14
#define NULDWICH_REFUSED_ANSWER_FORM 15
#define NULDWICH_REFUSED_ANSWER_RANGE 16

/* A refusal in words, also for a number that is none or is not known here. */
static inline const char *nuldwich_refusal(uint64_t number) {
    switch (number) {
    case NULDWICH_REFUSED_BUFFER: return "the answer buffer has under 4,268 bytes";
    case NULDWICH_REFUSED_TICKET_LENGTH: return "the ticket or question has over 32,768 bytes";
    case NULDWICH_REFUSED_CUT: return "the bytes stop before a record, or before any end record, is complete";
    case NULDWICH_REFUSED_KIND: return "a kind is unknown or out of its place, a step follows the last closed branch, or a byte follows the end record";
    case NULDWICH_REFUSED_BODY_LENGTH: return "the body length fits no form";
    case NULDWICH_REFUSED_RANGE: return "a field is outside its range";
    case NULDWICH_REFUSED_LITERAL: return "a literal repeats";
    case NULDWICH_REFUSED_STEP: return "a step does not fit";
    case NULDWICH_REFUSED_NUMBER: return "a new number passes 1,000,000,000 or -1,000,000,000";
    case NULDWICH_REFUSED_LIMIT: return "more than 128 facts on a branch, or more than 64 pending splits";
    case NULDWICH_REFUSED_OPEN: return "the end comes before every branch is closed, or before a model";
    case NULDWICH_REFUSED_MODEL: return "the model breaks an arithmetic fact";
    case NULDWICH_REFUSED_LEAF: return "the leaf is not settled";
    case NULDWICH_REFUSED_STRING_LENGTH: return "a length passes 64";
    case NULDWICH_REFUSED_ANSWER_FORM: return "the answer is not exactly of its form";
    case NULDWICH_REFUSED_ANSWER_RANGE: return "a character of the answer is not below n, or an integer is outside +-100,000,000";
    case NULDWICH_DONE:
    case NULDWICH_UNMET: return "not refused";
    default: return "refused for a reason that this version has no words for";
    }
}

/*
 * What nuldwich_check returns. Since version 3.0 it has four fields: a caller that was compiled with an earlier header must be compiled anew with this one.
 *
 * number 0        accepted; record is the claim, NULDWICH_NO_SOLUTION or NULDWICH_STRINGS
 * number 1 to 14  refused; record is the first faulty record, counted from 0, and 0 for 1 and 2
 *
 * core_low and core_high are the set of constraints that took part in a "no solution". Constraint k, counted from 0 over kinds 3 and 4 as they stand in the
 * question, is bit k of core_low, or bit k - 64 of core_high. nuldwich_took_part asks for one of them.
 *
 * no solution     the constraints in the set, without the others, have no solution either: that is proved. The set is what this ticket's steps rest on and is
 *                 not made smaller, so that fewer constraints may do
 * any other       both are 0
 */
typedef struct {
    uint64_t number;
    uint64_t record;
    uint64_t core_low;
    uint64_t core_high;
} nuldwich_reply;

/*
 * What nuldwich_judge returns.
 *
 * number 0           all constraints are met; record is 0
 * number 255         not all constraints are met; record is the number of the lowest-numbered one that is not, counted from 0
 *                    over kinds 3, 4 and 11 as they stand in the question
 * number 2 to 7, 10  the question is refused; record is its first faulty record, and 0 for 2
 * number 15, 16      the answer is refused; record is its first faulty record, and 0 for 15
 *
 * The part shown is length bytes from offset on, of the question where shown is NULDWICH_SHOWN_QUESTION, of the answer where it is
 * NULDWICH_SHOWN_ANSWER. nuldwich_shown gives the pointer to them.
 *
 * number 255         that constraint's whole record in the question, with its six leading bytes
 * number 15          the whole answer: offset 0 and its length, also where that is 0
 * number 16          the whole record of the answer that record names, with its six leading bytes
 * any other          an empty part of the question: offset 0, length 0
 */
typedef struct {
    uint64_t number;
    uint64_t record;
    uint64_t shown;
    uint64_t offset;
    uint64_t length;
} nuldwich_judgement;

/*
 * What nuldwich_need returns.
 *
 * number 0           record is 0, and
 *                    steps    is the number of step records
 *                    facts    the most facts on any branch; the constraints of the question are facts too
 *                    pending  the most splits with a child not yet begun at one time; 0 where the claim is strings
 * number 2 to 7, 11  refused; record is the first faulty record, and 0 for 2; the three counts are 0
 *
 * Every ticket that nuldwich_check accepts has counts, and checking meets exactly these numbers. So it refuses a ticket with facts over NULDWICH_MOST_FACTS or
 * pending over NULDWICH_MOST_PENDING. It may refuse others that have counts, since no step is tested here for whether it fits. A ticket that is refused here is
 * refused by nuldwich_check too; with an answer buffer that is large enough, at this record with the same number, or at an earlier record.
 */
typedef struct {
    uint64_t number;
    uint64_t record;
    uint64_t steps;
    uint64_t facts;
    uint64_t pending;
} nuldwich_needs;

/*
 * What nuldwich_same returns.
 *
 * number 0           both questions are read; record and which are 0, and same is 1 where they are the same, 0 where they are not
 * number 2 to 7, 10  the question that which names, NULDWICH_WHICH_FIRST or NULDWICH_WHICH_SECOND, is refused by judging's rules; record is its first
 *                    faulty record, and 0 for 2; same is 0. The first question's refusal comes before the second's, and both are read before they are compared
 *
 * same 1             the two have the same solutions: that is proved. What meets all constraints of one meets all of the other. A later version may find
 *                    fewer questions the same, never two that are different here
 * same 0             nothing is said of solutions: questions with other constraints may have the same ones
 *
 * Two questions are the same when n, p and q agree and each has every constraint of the other. Order, repeats, literals that no constraint names, the numbers of
 * literals, and, in a constraint of kind 3 between two string variables, which of them stands first do not count; literals are compared by their characters. An
 * arithmetic constraint is first divided by the greatest common divisor of all its coefficients and its constant, unless that is 0; of = 0 and its negation, not of
 * >= 0, the sign is then turned so that the first coefficient is positive, or the constant where there is none. Constraints of kind 11 are compared field by field.
 */
typedef struct {
    uint64_t number;
    uint64_t record;
    uint64_t which;
    uint64_t same;
} nuldwich_sameness;

/*
 * No operation keeps a pointer or any state between calls, so all may be called from several threads at once. A pointer may be null where its length is 0, and only
 * there. The answer buffer that nuldwich_check is lent overlaps no byte of the ticket.
 */

/*
 * Checks a ticket. The operation brings its own work area.
 *
 * ticket, ticket_len   the ticket's bytes; they are read only
 * answer, answer_len   the answer buffer, at least NULDWICH_ANSWER_BYTES bytes whatever the claim
 *
 * For strings (number 0, record 2) the answer stands from the buffer's first byte: for each string variable a record of
 * kind 9, then one of kind 10, then one of kind 8, which ends it. A record is a u32 body length, a u16 kind and a body,
 * little-endian; nuldwich_answer_next reads them. Bytes after the answer stay as they are. In every other case the whole
 * buffer stays as it is.
 */
nuldwich_reply nuldwich_check(const uint8_t *ticket, size_t ticket_len, uint8_t *answer, size_t answer_len);

/*
 * Judges an answer by a question. Nothing is written.
 *
 * After its other constraints a question may have some of kind 11, on case, digits and order. They take the next constraint numbers, and
 * count towards the 128 that a question may have. nuldwich_judge and nuldwich_same alone take them: nuldwich_check and nuldwich_need
 * refuse kind 11 with NULDWICH_REFUSED_KIND.
 *
 * question, question_len   a question, read up to its first claim or end record: a whole ticket will do
 * answer, answer_len       the answer, exactly of its form, with nothing after it: of a buffer that nuldwich_check filled, the bytes
 *                          up to the end of the record of kind 8, where nuldwich_answer_next leaves its offset
 */
nuldwich_judgement nuldwich_judge(const uint8_t *question, size_t question_len, const uint8_t *answer, size_t answer_len);

/*
 * Says how much checking a ticket needs, for a host that puts large tickets off to the evening: the time of checking grows with steps, and with facts.
 * Nothing is written.
 *
 * ticket, ticket_len   the ticket's bytes
 */
nuldwich_needs nuldwich_need(const uint8_t *ticket, size_t ticket_len);

/*
 * Says whether two questions are the same, for a host that keeps what it has been told of questions put before. Nothing is written.
 *
 * first, first_len     a question, read as nuldwich_judge reads it, up to its first claim or end record: a whole ticket will do
 * second, second_len   another one; the two may overlap
 */
nuldwich_sameness nuldwich_same(const uint8_t *first, size_t first_len, const uint8_t *second, size_t second_len);

/*
 * nuldwich_check and nuldwich_judge under the names that the office's papers have. They are weak symbols, so that a function of the host's own by one of these names
 * neither collides with them nor takes the place of nuldwich_check or nuldwich_judge. A source that has such a function defines NULDWICH_NO_SHORT_NAMES before it
 * includes this header. An archive that has one stands before libnuldwich.a where the program is linked.
 */
#ifndef NULDWICH_NO_SHORT_NAMES
nuldwich_reply check(const uint8_t *ticket, size_t ticket_len, uint8_t *answer, size_t answer_len);
nuldwich_judgement judge(const uint8_t *question, size_t question_len, const uint8_t *answer, size_t answer_len);
#endif

/* Whether a constraint, counted from 0, is in the set of those that took part: 1 or 0, and 0 for a number that no constraint has. */
static inline int nuldwich_took_part(nuldwich_reply reply, uint64_t constraint) {
    uint64_t word = constraint < 64 ? reply.core_low : reply.core_high;
    return constraint < NULDWICH_MOST_FACTS && (word >> (constraint % 64) & 1) == 1;
}

/*
 * Where the part that a judgement shows begins: judgement.length bytes, none where that is 0. question and answer are the pointers that nuldwich_judge was lent, and
 * the part is good for as long as their bytes are.
 */
static inline const uint8_t *nuldwich_shown(nuldwich_judgement judgement, const uint8_t *question, const uint8_t *answer) {
    const uint8_t *lent = judgement.shown == NULDWICH_SHOWN_ANSWER ? answer : question;
    return judgement.offset == 0 ? lent : lent + (size_t)judgement.offset;
}

/*
 * A record of an answer: its kind, NULDWICH_ANSWER_STRING or NULDWICH_ANSWER_INTEGERS, and its values, count of them. nuldwich_answer_character and
 * nuldwich_answer_integer give one of them.
 */
typedef struct {
    uint64_t kind;
    uint64_t count;
    const uint8_t *values;
} nuldwich_answer_record;

/* Four bytes as a number. */
static inline uint32_t nuldwich_u32(const uint8_t *bytes) {
    return (uint32_t)bytes[0] | (uint32_t)bytes[1] << 8 | (uint32_t)bytes[2] << 16 | (uint32_t)bytes[3] << 24;
}

/*
 * Reads the next record of an answer, as it stands in the buffer that nuldwich_check filled:
 *
 *     size_t offset = 0;
 *     nuldwich_answer_record record;
 *     while (nuldwich_answer_next(answer, sizeof answer, &offset, &record) > 0)
 *         ..
 *
 * answer, answer_len   the answer, which may be followed by other bytes
 * offset               where the record begins, 0 at first; it is moved after the record
 * record               what is read
 *
 * It returns 1 where a string or the integers were read; 0 where the record is the one that ends the answer, and offset is then the answer's length, as
 * nuldwich_judge takes it; and -1 where no whole record of these kinds is there, and offset stays. With 0 and -1 record stays as it is. No byte outside the
 * answer is read, whatever stands there.
 */
static inline int nuldwich_answer_next(const uint8_t *answer, size_t answer_len, size_t *offset, nuldwich_answer_record *record) {
    size_t left = *offset <= answer_len ? answer_len - *offset : 0;
    if (left < 6)
        return -1;
    const uint8_t *head = answer + *offset;
    uint32_t length = nuldwich_u32(head);
    unsigned kind = head[4] | (unsigned)head[5] << 8;
    if (length > left - 6 || length % 4 != 0 || kind < NULDWICH_ANSWER_END || kind > NULDWICH_ANSWER_INTEGERS)
        return -1;
    if (kind == NULDWICH_ANSWER_END && length > 0)
        return -1;
    *offset += 6 + (size_t)length;
    if (kind == NULDWICH_ANSWER_END)
        return 0;
    record->kind = kind;
    record->count = length / 4;
    record->values = head + 6;
    return 1;
}

/* A character of a string, counted from 0: its code point, and 0 where the string has no such character. */
static inline uint32_t nuldwich_answer_character(nuldwich_answer_record record, uint64_t number) {
    return number < record.count ? nuldwich_u32(record.values + (size_t)(4 * number)) : 0;
}

/* An integer, counted from 0, and 0 where there is no such one. */
static inline int32_t nuldwich_answer_integer(nuldwich_answer_record record, uint64_t number) {
    uint32_t bits = nuldwich_answer_character(record, number);
    return bits <= INT32_MAX ? (int32_t)bits : -(int32_t)(UINT32_MAX - bits) - 1;
}

#ifdef __cplusplus
}
#endif

#endif
