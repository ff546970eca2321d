/* What realm check says of a file, by the library. Usage: check FILE; the exit status is that of the program. */
#include "realm.h"
#include "realm_files.h"

int main(int argc, char **argv) {
    if (argc != 2) return REALM_USAGE;
    struct realm_text text = read_file(argv[1]);
    struct realm_verdict verdict;
    uint32_t status = realm_check(text.bytes, text.length, &verdict);
    if (status == REALM_DONE) printf("accepted need %u\n", verdict.need);
    if (status == REALM_UNREAD) {
        printf("refused line %llu", (unsigned long long)verdict.line);
        put_word(REALM_WHY_WORD, verdict.why);
        putchar('\n');
    }
    if (status == REALM_UNFIT) {
        /* the program names the operations; the library tells their numbers */
        printf("refused");
        put_word(REALM_RULE_WORD, verdict.rule);
        printf(" %u", verdict.first);
        if (verdict.rule == REALM_SECTION || verdict.rule == REALM_DESCENDS || verdict.rule == REALM_RACE) printf(" %u", verdict.second);
        putchar('\n');
    }
    if (status == REALM_TOO_LONG) printf("input too long\n");
    free(text.bytes);
    return (int)status;
}
