/* The desk's second case through the header, as an engineer who embeds the library would write it. */
#include "brimusket.h"

#include <stdio.h>
#include <string.h>

static const char policy[] =
    "H > S bank paid paid\n"
    "H S bank paid\n"
    "Q paid\n"
    "Q P bank paid\n"
    "Q S bank lien\n";

int main(void) {
    static uint8_t journal[BRIMUSKET_JOURNAL_BYTES];
    static uint8_t answers[BRIMUSKET_QUERIES];
    static const char *const words[] = {"no", "yes", "open"};

    brimusket_report report =
        brimusket_run((const uint8_t *)policy, strlen(policy), journal, sizeof journal, 0, BRIMUSKET_ALL, answers,
                      sizeof answers);
    if (report.code != 0) {
        printf("refused %zu %zu\n", report.code, report.place);
        return 1;
    }
    /* Here a program brings the first `used` bytes of the journal to safety, before anyone acts on a yes. */
    printf("kept %zu, added %zu, finished %d, used %zu\n", report.kept, report.added, report.finished, report.used);
    for (size_t i = 0; i < 3; i++) {
        printf("%zu %s\n", i + 1, words[answers[i]]);
    }
    return 0;
}
