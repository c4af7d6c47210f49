/* Holds what include/nuldwich.h says of the library against it: the version, the words for refusals, null pointers, on the tickets named as arguments the short
   names, the constraints that took part, what judging shows, what nuldwich_need returns beside checking, what nuldwich_same returns beside judging and of questions
   that overlap, and the stack that a call uses, and who takes kind 11. The last line is 'N passed, M failed'. */

#define _XOPEN_SOURCE 700

#include <inttypes.h>
#include <stdio.h>
#include <stdlib.h>
#include <string.h>
#include <ucontext.h>

#include "nuldwich.h"

#define STACK_BYTES (1 << 18)
#define PAINT 0xA5

/* Of a ticket up to this size each byte is changed. */
#define SMALL_TICKET 200

static uint8_t stack[STACK_BYTES];
static ucontext_t caller, callee;
static uint8_t ticket[NULDWICH_TICKET_BYTES + 1], other[NULDWICH_TICKET_BYTES + 1], answer[NULDWICH_ANSWER_BYTES];
static size_t ticket_len, other_len, answer_len;
static nuldwich_reply reply;
static nuldwich_needs needs;
static nuldwich_sameness sameness;
static unsigned passed, failed;

static void count(int good, const char *what) {
    if (good) {
        passed++;
    } else {
        failed++;
        printf("header: %s\n", what);
    }
}

/* The number and the words of the version are the same one, and the library's. */
static void hold_version(void) {
    char words[32];
    snprintf(words, sizeof words, "%d.%d", NULDWICH_VERSION / 1000, NULDWICH_VERSION % 1000);
    count(strcmp(words, NULDWICH_VERSION_STRING) == 0, "the version's number and words differ");
    count(nuldwich_version() == NULDWICH_VERSION, "the library has another version");
    count(nuldwich_major_3() == NULDWICH_VERSION / 1000, "the library has another major version");
}

/* Each refusal has words of its own, and every other number has some. */
static void hold_words(void) {
    const char *none = nuldwich_refusal(NULDWICH_DONE), *unknown = nuldwich_refusal(UINT64_MAX), *before = none;
    int good = none != NULL && unknown != NULL;
    for (uint64_t number = 1; good && number <= 256; number++) {
        const char *words = nuldwich_refusal(number);
        int own = words != NULL && strcmp(words, none) != 0 && strcmp(words, unknown) != 0 && strcmp(words, before) != 0;
        good = words != NULL && own == (number <= NULDWICH_REFUSED_ANSWER_RANGE);
        before = words;
    }
    count(good, "a number has no words, or those of another");
}

static size_t u32_at(const uint8_t *bytes) {
    return (size_t)bytes[0] | (size_t)bytes[1] << 8 | (size_t)bytes[2] << 16 | (size_t)bytes[3] << 24;
}

/* The length of a record, its six leading bytes included. */
static size_t record_length(const uint8_t *record) { return 6 + u32_at(record); }

/* Where the record starts that stands so many behind the one at start. */
static size_t record_start(const uint8_t *bytes, size_t start, uint64_t behind) {
    for (; behind > 0; behind--)
        start += record_length(bytes + start);
    return start;
}

/* Where the first constraint of the ticket starts: behind the head and the literals. */
static size_t constraints_start(void) {
    size_t start = 0;
    while (ticket[start + 4] < 3)
        start += record_length(ticket + start);
    return start;
}

/* A pointer may be null where its length is 0. */
static void hold_null(void) {
    static const uint8_t question[] = {8, 0, 0, 0, 1, 0, 1, 0, 0, 0, 0, 0, 0, 0, 0, 0, 0, 0, 8, 0};
    nuldwich_reply checked = nuldwich_check(NULL, 0, answer, sizeof answer), nothing = nuldwich_check(NULL, 0, NULL, 0);
    nuldwich_judgement judged = nuldwich_judge(NULL, 0, NULL, 0), no_answer = nuldwich_judge(question, sizeof question, NULL, 0);
    nuldwich_needs needed = nuldwich_need(NULL, 0);
    nuldwich_sameness first = nuldwich_same(NULL, 0, NULL, 0), second = nuldwich_same(question, sizeof question, NULL, 0);
    count(checked.number == NULDWICH_REFUSED_CUT && checked.record == 0 && nothing.number == NULDWICH_REFUSED_BUFFER, "checking takes null otherwise than is said");
    count(judged.number == NULDWICH_REFUSED_CUT && nuldwich_shown(judged, NULL, NULL) == NULL, "judging takes null otherwise than is said");
    count(no_answer.number == NULDWICH_REFUSED_ANSWER_FORM && nuldwich_shown(no_answer, question, NULL) == NULL, "judging takes a null answer otherwise than is said");
    count(needed.number == NULDWICH_REFUSED_CUT && needed.record == 0, "nuldwich_need takes null otherwise than is said");
    count(first.number == NULDWICH_REFUSED_CUT && first.which == NULDWICH_WHICH_FIRST && second.which == NULDWICH_WHICH_SECOND, "nuldwich_same takes null otherwise than is said");
}

static void run_check(void) { reply = nuldwich_check(ticket, ticket_len, answer, sizeof answer); }

static void run_judge(void) { nuldwich_judge(ticket, ticket_len, answer, answer_len); }

static void run_need(void) { needs = nuldwich_need(ticket, ticket_len); }

static void run_same(void) { sameness = nuldwich_same(ticket, ticket_len, other, other_len); }

/* How many bytes of a painted stack a call changes, down to the lowest. */
static size_t stack_used(void (*call)(void)) {
    memset(stack, PAINT, STACK_BYTES);
    getcontext(&callee);
    callee.uc_stack.ss_sp = stack;
    callee.uc_stack.ss_size = STACK_BYTES;
    callee.uc_link = &caller;
    makecontext(&callee, call, 0);
    swapcontext(&caller, &callee);
    size_t untouched = 0;
    while (untouched < STACK_BYTES && stack[untouched] == PAINT)
        untouched++;
    return STACK_BYTES - untouched;
}

/* The length of the answer in the buffer, if checking has put one there. */
static size_t answer_length(void) {
    nuldwich_answer_record record;
    size_t offset = 0;
    if (reply.number != NULDWICH_DONE || reply.record != NULDWICH_STRINGS)
        return 0;
    while (nuldwich_answer_next(answer, sizeof answer, &offset, &record) > 0)
        continue;
    return offset;
}

/* Makes the ticket the other question too. */
static void keep_other(void) {
    memcpy(other, ticket, ticket_len);
    other_len = ticket_len;
}

static void read_ticket(const char *path) {
    FILE *file = fopen(path, "rb");
    if (file == NULL) {
        perror(path);
        exit(2);
    }
    ticket_len = fread(ticket, 1, sizeof ticket, file);
    fclose(file);
}

/* The short names give what the others give, on every ticket, with its answer too. */
static void hold_short_names(char **paths) {
    static uint8_t written[NULDWICH_ANSWER_BYTES];
    int good = 1;
    for (; *paths != NULL; paths++) {
        read_ticket(*paths);
        memset(answer, PAINT, sizeof answer);
        memset(written, PAINT, sizeof written);
        run_check();
        nuldwich_reply checked = check(ticket, ticket_len, written, sizeof written);
        good &= memcmp(&checked, &reply, sizeof checked) == 0 && memcmp(written, answer, sizeof written) == 0;
        nuldwich_judgement judged = judge(ticket, ticket_len, answer, answer_length()), other_name = nuldwich_judge(ticket, ticket_len, answer, answer_length());
        good &= memcmp(&judged, &other_name, sizeof judged) == 0;
    }
    count(good, "check or judge returns another thing than nuldwich_check or nuldwich_judge");
}

/* The constraints of a ticket all of whose records are whole. */
static uint64_t constraint_records(void) {
    uint64_t constraints = 0;
    for (size_t start = 0; start < ticket_len; start += record_length(ticket + start))
        constraints += (ticket[start + 4] == 3 || ticket[start + 4] == 4) && ticket[start + 5] == 0;
    return constraints;
}

/* Whether the reply's set is what the header says of it: with no solution some of the ticket's constraints, else empty; and the inline function reads its bits. */
static int took_part_as_said(void) {
    int none = reply.number == NULDWICH_DONE && reply.record == NULDWICH_NO_SOLUTION, good = 1;
    uint64_t low = 0, high = 0;
    for (uint64_t k = 0; k < 64; k++) {
        low |= (uint64_t)nuldwich_took_part(reply, k) << k;
        high |= (uint64_t)nuldwich_took_part(reply, 64 + k) << k;
    }
    good &= low == reply.core_low && high == reply.core_high && none == (low != 0 || high != 0);
    for (uint64_t k = none ? constraint_records() : 0; k < 1024; k++)
        good &= !nuldwich_took_part(reply, k);
    return good && !nuldwich_took_part(reply, UINT64_MAX) && !nuldwich_took_part(reply, (uint64_t)1 << 32);
}

/* On every ticket, and on the small ones with each of their bytes changed. */
static void hold_core(char **paths) {
    int good = sizeof(nuldwich_reply) == 32 && offsetof(nuldwich_reply, core_low) == 16 && offsetof(nuldwich_reply, core_high) == 24;
    int in_low = 0, in_high = 0, last = 0;
    for (; *paths != NULL; paths++) {
        read_ticket(*paths);
        run_check();
        good &= took_part_as_said();
        in_low |= reply.core_low != 0 && reply.core_high == 0;
        in_high |= reply.core_high != 0;
        last |= nuldwich_took_part(reply, NULDWICH_MOST_FACTS - 1);
        for (size_t at = 0; ticket_len <= SMALL_TICKET && at < ticket_len; at++) {
            ticket[at] ^= 1;
            run_check();
            good &= took_part_as_said();
            ticket[at] ^= 1;
        }
    }
    count(good, "check returns another set of constraints than is said");
    count(in_low && in_high && last, "check was not brought to sets in both words and to the last constraint");
}

/* Whether a judgement shows one of the two lent slices from a place on, so many bytes, and the inline function finds them. */
static int shows(nuldwich_judgement judgement, uint64_t side, size_t offset, size_t length) {
    const uint8_t *lent = side == NULDWICH_SHOWN_ANSWER ? answer : ticket;
    return judgement.shown == side && judgement.offset == offset && judgement.length == length &&
           nuldwich_shown(judgement, ticket, answer) == lent + offset;
}

/* Whether a judgement shows what the header says of its number. */
static int shows_as_said(nuldwich_judgement judgement) {
    size_t start;
    switch (judgement.number) {
    case NULDWICH_UNMET:
        start = record_start(ticket, constraints_start(), judgement.record);
        return shows(judgement, NULDWICH_SHOWN_QUESTION, start, record_length(ticket + start));
    case NULDWICH_REFUSED_ANSWER_FORM: return shows(judgement, NULDWICH_SHOWN_ANSWER, 0, answer_len);
    case NULDWICH_REFUSED_ANSWER_RANGE:
        start = record_start(answer, 0, judgement.record);
        return shows(judgement, NULDWICH_SHOWN_ANSWER, start, record_length(answer + start));
    default: return shows(judgement, NULDWICH_SHOWN_QUESTION, 0, 0);
    }
}

/* Judges what is in the two buffers; met counts by the judgement's number. */
static int judged_as_said(unsigned met[256]) {
    nuldwich_judgement judgement = nuldwich_judge(ticket, ticket_len, answer, answer_len);
    met[judgement.number & 255]++;
    return shows_as_said(judgement);
}

/* Judges by the ticket the answer of this length, one cut by a byte, and all with one of its bytes changed. */
static int all_judged_as_said(size_t whole, unsigned met[256]) {
    int good = 1;
    for (answer_len = whole > 0 ? whole - 1 : 0; answer_len <= whole; answer_len++)
        good &= judged_as_said(met);
    answer_len = whole;
    for (size_t at = 0; at < whole; at++) {
        answer[at] ^= 1;
        good &= judged_as_said(met);
        answer[at] ^= 1;
    }
    return good;
}

/* On every ticket, with the answer that check gives or none. */
static void hold_shown(char **paths) {
    unsigned met[256] = {0};
    int good = 1;
    for (; *paths != NULL; paths++) {
        read_ticket(*paths);
        run_check();
        good &= all_judged_as_said(answer_length(), met);
    }
    count(good, "judge shows another part than is said");
    int all = met[NULDWICH_DONE] && met[NULDWICH_UNMET] && met[NULDWICH_REFUSED_ANSWER_FORM] && met[NULDWICH_REFUSED_ANSWER_RANGE];
    count(all && met[NULDWICH_REFUSED_CUT], "judge was not brought to every part that it may show");
}

/* The step records of a ticket all of whose records are whole. */
static uint64_t step_records(void) {
    uint64_t steps = 0;
    for (size_t start = 0; start < ticket_len; start = record_start(ticket, start, 1))
        steps += ticket[start + 4] == 6 && ticket[start + 5] == 0;
    return steps;
}

/* Whether the ticket's needs are what the header says of them, beside what check returns. */
static int needs_as_said(void) {
    int accepted = reply.number == NULDWICH_DONE;
    int within = needs.facts <= NULDWICH_MOST_FACTS && needs.pending <= NULDWICH_MOST_PENDING;
    int same = reply.number == needs.number && reply.record == needs.record;
    if (needs.number == NULDWICH_DONE)
        return needs.record == 0 && needs.steps == step_records() && (within || !accepted);
    return !accepted && (same || reply.record < needs.record) && needs.steps == 0 && needs.facts == 0 && needs.pending == 0;
}

/* Checks the ticket and counts its needs; met counts by the number of these. */
static int needed_as_said(unsigned met[256]) {
    run_check();
    run_need();
    met[needs.number & 255]++;
    return needs_as_said();
}

/* Whether a number is one of nuldwich_need's. */
static int is_of_need(unsigned number) { return number == NULDWICH_DONE || (2 <= number && number <= 7) || number == NULDWICH_REFUSED_OPEN; }

/* On every ticket, and on the small ones with each of their bytes changed. */
static void hold_needs(char **paths) {
    unsigned met[256] = {0};
    int good = 1, all = 1, over = 0;
    for (; *paths != NULL; paths++) {
        read_ticket(*paths);
        good &= needed_as_said(met);
        over |= needs.facts > NULDWICH_MOST_FACTS && needs.pending > NULDWICH_MOST_PENDING;
        for (size_t at = 0; ticket_len <= SMALL_TICKET && at < ticket_len; at++) {
            ticket[at] ^= 1;
            good &= needed_as_said(met);
            ticket[at] ^= 1;
        }
    }
    for (unsigned number = 0; number < 256; number++)
        all &= (met[number] > 0) == is_of_need(number);
    count(good, "nuldwich_need returns another thing than is said");
    count(all && over, "nuldwich_need was not brought to every number and over the limits, or returned a number that is not its own");
}

/* What judge says of a question, given no answer: its refusal, or that of the answer. */
static nuldwich_judgement question_judged(const uint8_t *question, size_t question_len) { return nuldwich_judge(question, question_len, answer, 0); }

/* Whether a judgement refuses the question. */
static int is_question_refused(nuldwich_judgement judgement) { return judgement.number != NULDWICH_REFUSED_ANSWER_FORM; }

/* Compares the ticket with the other question; met counts by number and question refused. Whether the reply is the first refusal of the two by judge, or says one of
   two things, of equal bytes that they are the same. */
static int compared_as_said(unsigned met[3][256]) {
    nuldwich_judgement first = question_judged(ticket, ticket_len), second = question_judged(other, other_len);
    run_same();
    met[sameness.which % 3][sameness.number & 255]++;
    if (is_question_refused(first) || is_question_refused(second)) {
        uint64_t which = is_question_refused(first) ? NULDWICH_WHICH_FIRST : NULDWICH_WHICH_SECOND;
        nuldwich_judgement refused = is_question_refused(first) ? first : second;
        return sameness.number == refused.number && sameness.record == refused.record && sameness.which == which && sameness.same == 0;
    }
    int equal = ticket_len == other_len && memcmp(ticket, other, ticket_len) == 0;
    return sameness.number == NULDWICH_DONE && sameness.record == 0 && sameness.which == 0 && sameness.same <= 1 && (sameness.same == 1 || !equal);
}

/* Whether a number is one of nuldwich_same's for the question that it names. */
static int is_of_same(unsigned which, unsigned number) {
    return which == 0 ? number == NULDWICH_DONE : (2 <= number && number <= 7) || number == NULDWICH_REFUSED_LIMIT;
}

/* On every ticket beside the one before it and beside itself, and on the small ones beside themselves with each of their bytes changed. */
static void hold_sameness(char **paths) {
    unsigned met[3][256] = {{0}}, said[2] = {0};
    int good = sizeof(nuldwich_sameness) == 32 && offsetof(nuldwich_sameness, which) == 16 && offsetof(nuldwich_sameness, same) == 24, all = 1;
    for (other_len = 0; *paths != NULL; paths++) {
        read_ticket(*paths);
        good &= compared_as_said(met);
        keep_other();
        good &= compared_as_said(met);
        for (size_t at = 0; ticket_len <= SMALL_TICKET && at < ticket_len; at++) {
            ticket[at] ^= 1;
            good &= compared_as_said(met);
            said[sameness.same & 1] += sameness.number == NULDWICH_DONE;
            ticket[at] ^= 1;
        }
    }
    for (unsigned which = 0; which < 3; which++)
        for (unsigned number = 0; number < 256; number++)
            all &= (met[which][number] > 0) == is_of_same(which, number);
    count(good, "nuldwich_same returns another thing than is said");
    count(all && said[0] && said[1], "nuldwich_same was not brought to every reply, or returned a number that is not its own");
}

static int is_equal(nuldwich_sameness one, nuldwich_sameness another) {
    return one.number == another.number && one.record == another.record && one.which == another.which && one.same == another.same;
}

/* Whether questions that overlap, all of some bytes and those from a place on, get the reply of separate copies, in either order; met counts the replies by the
   question refused, said those without a refusal. */
static int overlap_as_said(const uint8_t *bytes, size_t length, size_t from, unsigned met[3], unsigned said[2]) {
    static uint8_t apart[sizeof ticket + sizeof other];
    const uint8_t *inner = bytes + from;
    size_t inner_len = length - from;
    memcpy(apart, inner, inner_len);
    nuldwich_sameness ahead = nuldwich_same(bytes, length, apart, inner_len), behind = nuldwich_same(apart, inner_len, bytes, length);
    met[ahead.which % 3]++;
    said[ahead.same & 1] += ahead.number == NULDWICH_DONE && from > 0;
    return is_equal(nuldwich_same(bytes, length, inner, inner_len), ahead) && is_equal(nuldwich_same(inner, inner_len, bytes, length), behind);
}

/* On every ticket twice in the same bytes, and with the one before it or itself behind it, where what follows a question's end is not read; on the small ones also
   from each of their bytes on. */
static void hold_overlap(char **paths) {
    static uint8_t joined[sizeof ticket + sizeof other];
    unsigned met[3] = {0}, said[2] = {0};
    int good = 1;
    for (other_len = 0; *paths != NULL; paths++) {
        read_ticket(*paths);
        for (size_t from = 0; from == 0 || (ticket_len <= SMALL_TICKET && from <= ticket_len); from++)
            good &= overlap_as_said(ticket, ticket_len, from, met, said);
        memcpy(joined, ticket, ticket_len);
        for (int itself = 0; itself < 2; itself++) {
            memcpy(joined + ticket_len, other, other_len);
            good &= overlap_as_said(joined, ticket_len + other_len, ticket_len, met, said);
            keep_other();
        }
    }
    count(good, "nuldwich_same replies otherwise where two questions overlap");
    count(met[NULDWICH_WHICH_FIRST] && met[NULDWICH_WHICH_SECOND] && said[0] && said[1], "nuldwich_same was not brought to every reply on questions that overlap");
}

/* A question with a constraint of kind 11 for each function, and strings and an integer that meet it. */
static void pose_extended(void) {
    static const uint8_t question[] = {
        8, 0, 0, 0, 1,  0, 128, 0, 0, 0, 3, 0, 1, 0, /* n = 128, three strings, an integer */
        6, 0, 0, 0, 11, 0, 0,   0, 0, 0, 1, 0,       /* x0 is x1 in upper case */
        6, 0, 0, 0, 11, 0, 1,   0, 1, 0, 0, 0,       /* x1 is x0 in lower case */
        6, 0, 0, 0, 11, 0, 2,   0, 0, 0, 2, 0,       /* i0 is x2 read in decimal */
        6, 0, 0, 0, 11, 0, 3,   0, 2, 0, 0, 0,       /* x2 is i0 in decimal */
        6, 0, 0, 0, 11, 0, 4,   0, 0, 0, 1, 0,       /* x0 is equal to x1 or before it */
        0, 0, 0, 0, 8,  0,
    };
    static const uint8_t values[] = {
        4, 0, 0, 0, 9,  0, 'A', 0, 0, 0, /* x0 */
        4, 0, 0, 0, 9,  0, 'a', 0, 0, 0, /* x1 */
        4, 0, 0, 0, 9,  0, '7', 0, 0, 0, /* x2 */
        4, 0, 0, 0, 10, 0, 7,   0, 0, 0, /* i0 */
        0, 0, 0, 0, 8,  0,
    };
    memcpy(ticket, question, sizeof question);
    ticket_len = sizeof question;
    memcpy(answer, values, sizeof values);
    answer_len = sizeof values;
}

/* judge takes kind 11 and shows its record, and nuldwich_same takes it; the two others refuse it. */
static void hold_extended(void) {
    unsigned met[256] = {0};
    pose_extended();
    run_need();
    count(needs.number == NULDWICH_REFUSED_KIND && needs.record == 1, "nuldwich_need takes kind 11");
    count(all_judged_as_said(answer_len, met) && met[NULDWICH_DONE] == 1 && met[NULDWICH_UNMET], "judge does not take kind 11 as is said");
    run_check();
    count(reply.number == NULDWICH_REFUSED_KIND && reply.record == 1, "check takes kind 11");
    keep_other();
    run_same();
    count(sameness.number == NULDWICH_DONE && sameness.same == 1, "nuldwich_same does not take kind 11");
}

/* A call of the operation may use so much stack. */
static void hold_most(const char *operation, size_t most, size_t said) {
    char words[64];
    snprintf(words, sizeof words, "%s uses more stack than is said", operation);
    printf("stack: %s %zu bytes\n", operation, most);
    count(0 < most && most <= said, words);
}

static size_t larger(size_t one, size_t other) { return one > other ? one : other; }

/* All operations stay within their stack on every ticket, judge and nuldwich_same also on kind 11. */
static void hold_stack(char **paths) {
    size_t check_most = 0, judge_most = 0, need_most = 0, same_most = 0;
    for (; *paths != NULL; paths++) {
        read_ticket(*paths);
        check_most = larger(check_most, stack_used(run_check));
        answer_len = answer_length();
        judge_most = larger(judge_most, stack_used(run_judge));
        need_most = larger(need_most, stack_used(run_need));
        keep_other();
        same_most = larger(same_most, stack_used(run_same));
    }
    pose_extended();
    judge_most = larger(judge_most, stack_used(run_judge));
    keep_other();
    same_most = larger(same_most, stack_used(run_same));
    hold_most("check", check_most, NULDWICH_CHECK_STACK_BYTES);
    hold_most("judge", judge_most, NULDWICH_JUDGE_STACK_BYTES);
    hold_most("nuldwich_need", need_most, NULDWICH_NEED_STACK_BYTES);
    hold_most("nuldwich_same", same_most, NULDWICH_SAME_STACK_BYTES);
}

int main(int argc, char **argv) {
    (void)argc;
    hold_version();
    hold_words();
    hold_null();
    hold_short_names(argv + 1);
    hold_core(argv + 1);
    hold_shown(argv + 1);
    hold_needs(argv + 1);
    hold_sameness(argv + 1);
    hold_overlap(argv + 1);
    hold_extended();
    hold_stack(argv + 1);
    printf("%u passed, %u failed\n", passed, failed);
    return failed != 0;
}
