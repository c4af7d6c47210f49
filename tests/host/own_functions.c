/* The check and the judge of own_names.c, in a file of their own. */

#ifdef __cplusplus
extern "C" {
#endif

int check(int number);
int judge(const char *words);

int check(int number) { return number + 1; }
int judge(const char *words) { return words[0]; }

#ifdef __cplusplus
}
#endif
