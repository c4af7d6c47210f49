/* A host that has a check and a judge of its own, in this file or, where APART is defined, in own_functions.c: nuldwich_check and nuldwich_judge are the library's all the
   same, and its own functions its own. The status is 0 where that holds. */

#define NULDWICH_NO_SHORT_NAMES

#include <stddef.h>

#include "nuldwich.h"

#ifdef __cplusplus
extern "C" {
#endif

int check(int number);
int judge(const char *words);

#ifndef APART
int check(int number) { return number + 1; }
int judge(const char *words) { return words[0]; }
#endif

#ifdef __cplusplus
}
#endif

int main(void) {
    uint8_t answer[NULDWICH_ANSWER_BYTES];
    nuldwich_reply reply = nuldwich_check(NULL, 0, answer, sizeof answer);
    nuldwich_judgement judgement = nuldwich_judge(NULL, 0, NULL, 0);
    int of_the_library = reply.number == NULDWICH_REFUSED_CUT && reply.record == 0 && judgement.number == NULDWICH_REFUSED_CUT && judgement.record == 0;
    return of_the_library && check(41) == 42 && judge("J") == 'J' ? 0 : 1;
}
