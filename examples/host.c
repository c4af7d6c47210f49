/* A host program, in C and C++ alike: says how much checking the ticket in a file needs, checks it and, when it brings strings, judges them by the same ticket's
   question, or, when there is no solution, says which constraints took part. Given the file of an answer too, it judges that answer by the ticket's question instead.
   Asked with the word same, it says of the questions in two files whether they are the same. */

#include <inttypes.h>
#include <stdio.h>
#include <stdlib.h>
#include <string.h>

#include "nuldwich.h"

/* From so many steps on this office puts a ticket off to the evening. The number is the host's own choice. */
#define STEPS_FOR_THE_EVENING 200

static void print_refusal(uint64_t number, uint64_t record) {
    printf("refused at record %" PRIu64 ": %s (%" PRIu64 ")\n", record, nuldwich_refusal(number), number);
}

/* Prints the strings and integers of an answer, and returns its length. */
static size_t print_answer(const uint8_t *answer, size_t answer_len) {
    nuldwich_answer_record record;
    size_t offset = 0;
    for (unsigned number = 0; nuldwich_answer_next(answer, answer_len, &offset, &record) > 0; number++) {
        if (record.kind == NULDWICH_ANSWER_STRING)
            printf("string %u:", number);
        else
            printf("integers:");
        for (uint64_t k = 0; k < record.count; k++)
            printf(" %" PRId32, nuldwich_answer_integer(record, k));
        printf("\n");
    }
    return offset;
}

/* Prints the part that a judgement shows: whose it is, where it stands and its bytes in hexadecimal. Of the question an empty part is not worth a line. */
static void print_shown(nuldwich_judgement judgement, const uint8_t *question, const uint8_t *answer) {
    const uint8_t *shown = nuldwich_shown(judgement, question, answer);
    int of_answer = judgement.shown == NULDWICH_SHOWN_ANSWER;
    if (judgement.length == 0) {
        if (of_answer)
            printf("shown: the answer, which is empty\n");
        return;
    }
    printf("shown: the %s, offset %" PRIu64 ", length %" PRIu64 ":", of_answer ? "answer" : "question", judgement.offset, judgement.length);
    for (uint64_t at = 0; at < judgement.length; at++)
        printf(" %02x", shown[at]);
    printf("\n");
}

/* Judges an answer by a question and prints what is said and shown. */
static void judge_and_print(const uint8_t *question, size_t question_len, const uint8_t *answer, size_t answer_len) {
    nuldwich_judgement judgement = nuldwich_judge(question, question_len, answer, answer_len);
    if (judgement.number == NULDWICH_DONE)
        printf("judged: all constraints are met\n");
    else if (judgement.number == NULDWICH_UNMET)
        printf("judged: constraint %" PRIu64 " is not met\n", judgement.record);
    else
        print_refusal(judgement.number, judgement.record);
    print_shown(judgement, question, answer);
}

/* What a host may do with a ticket that has these needs. */
static const char *advice(nuldwich_needs needs) {
    if (needs.facts > NULDWICH_MOST_FACTS || needs.pending > NULDWICH_MOST_PENDING)
        return "over the limits, it will be refused";
    return needs.steps < STEPS_FOR_THE_EVENING ? "check it now" : "check it in the evening";
}

/* Prints how much checking a ticket needs. One that is refused here is refused by check too, perhaps at an earlier record. */
static void print_needs(const uint8_t *ticket, size_t ticket_len) {
    nuldwich_needs needs = nuldwich_need(ticket, ticket_len);
    if (needs.number == NULDWICH_DONE)
        printf("needs: steps %" PRIu64 ", facts %" PRIu64 ", pending splits %" PRIu64 ": %s\n", needs.steps, needs.facts, needs.pending, advice(needs));
    else
        printf("needs: not counted, refused at record %" PRIu64 " (%" PRIu64 ")\n", needs.record, needs.number);
}

/* Prints the constraints that took part in a "no solution", by number: those that clash. Without the others there is no solution either. */
static void print_core(nuldwich_reply reply) {
    printf("constraints that took part:");
    for (unsigned constraint = 0; constraint < NULDWICH_MOST_FACTS; constraint++)
        if (nuldwich_took_part(reply, constraint))
            printf(" %u", constraint);
    printf("\n");
}

/* Checks a ticket, prints the verdict and, for strings, what judging says of them, for no solution, what took part in it. */
static void check_and_print(const uint8_t *ticket, size_t ticket_len) {
    uint8_t answer[NULDWICH_ANSWER_BYTES];
    nuldwich_reply reply = nuldwich_check(ticket, ticket_len, answer, sizeof answer);
    if (reply.number != NULDWICH_DONE) {
        print_refusal(reply.number, reply.record);
    } else if (reply.record == NULDWICH_NO_SOLUTION) {
        printf("accepted: there is no solution\n");
        print_core(reply);
    } else {
        printf("accepted: there are strings\n");
        size_t answer_len = print_answer(answer, sizeof answer);
        judge_and_print(ticket, ticket_len, answer, answer_len);
    }
}

/* Prints whether two questions are the same: whether what is known of the first can be told of the second. */
static void compare_and_print(const uint8_t *first, size_t first_len, const uint8_t *second, size_t second_len) {
    nuldwich_sameness sameness = nuldwich_same(first, first_len, second, second_len);
    if (sameness.number != NULDWICH_DONE) {
        printf("the %s question is ", sameness.which == NULDWICH_WHICH_FIRST ? "first" : "second");
        print_refusal(sameness.number, sameness.record);
    } else if (sameness.same) {
        printf("the same question: the same strings and integers solve both\n");
    } else {
        printf("not the same question\n");
    }
}

static void fail(const char *path) {
    perror(path);
    exit(2);
}

/* Reads a whole file into a buffer of exactly its size, or of one byte where the file has none. */
static uint8_t *read_file(const char *path, size_t *length) {
    FILE *file = fopen(path, "rb");
    if (file == NULL)
        fail(path);
    uint8_t *bytes = NULL;
    size_t room = 0;
    *length = 0;
    do {
        room = 2 * room + NULDWICH_TICKET_BYTES;
        bytes = (uint8_t *)realloc(bytes, room);
        if (bytes == NULL)
            fail(path);
        *length += fread(bytes + *length, 1, room - *length, file);
    } while (*length == room);
    if (ferror(file))
        fail(path);
    fclose(file);
    uint8_t *exact = (uint8_t *)realloc(bytes, *length > 0 ? *length : 1);
    return exact != NULL ? exact : bytes;
}

/* Checks the ticket in a file. */
static void check_file(const char *path) {
    size_t ticket_len;
    uint8_t *ticket = read_file(path, &ticket_len);
    print_needs(ticket, ticket_len);
    check_and_print(ticket, ticket_len);
    free(ticket);
}

/* Judges an answer by a question, or compares two questions, which stand in two files. */
static void on_two_files(void (*operation)(const uint8_t *, size_t, const uint8_t *, size_t), const char *first_path, const char *second_path) {
    size_t first_len, second_len;
    uint8_t *first = read_file(first_path, &first_len), *second = read_file(second_path, &second_len);
    operation(first, first_len, second, second_len);
    free(first);
    free(second);
}

int main(int argc, char **argv) {
    if (argc == 2) {
        check_file(argv[1]);
    } else if (argc == 3) {
        on_two_files(judge_and_print, argv[1], argv[2]);
    } else if (argc == 4 && strcmp(argv[1], "same") == 0) {
        on_two_files(compare_and_print, argv[2], argv[3]);
    } else {
        fprintf(stderr, "usage: %s TICKET [ANSWER] | same QUESTION QUESTION\n", argv[0]);
        return 2;
    }
    return 0;
}
