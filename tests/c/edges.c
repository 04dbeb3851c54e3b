/* What the header says of the edges: buffers of length 0 without a pointer, bytes that stay, and the used length after code 7. */
#include "brimusket.h"

#include <stdio.h>
#include <string.h>

static const uint8_t fact[] = "H b\n";
static const uint8_t question[] = "Q b\n";

static void shows_report(const char *what, brimusket_report report) {
    printf("%s: code %zu, kept %zu, added %zu, finished %d, used %zu\n", what, report.code, report.kept, report.added,
           report.finished, report.used);
}

int main(void) {
    static uint8_t text[BRIMUSKET_TEXT_BYTES];
    uint8_t journal[12], answers[3];

    shows_report("nothing at all", brimusket_run(NULL, 0, NULL, 0, 0, BRIMUSKET_ALL, NULL, 0));
    shows_report("no journal", brimusket_run(fact, 4, NULL, 0, 0, BRIMUSKET_ALL, NULL, 0));
    shows_report("no answers", brimusket_run(question, 4, journal, sizeof journal, 0, BRIMUSKET_ALL, NULL, 0));
    shows_report("used too large", brimusket_run(fact, 4, journal, sizeof journal, 100, BRIMUSKET_ALL, NULL, 0));

    memset(journal, 7, sizeof journal);
    memset(answers, 7, sizeof answers);
    shows_report("one record", brimusket_run(fact, 4, journal, sizeof journal, 0, SIZE_MAX, answers, sizeof answers));
    printf("behind it %d %d %d, answers %d %d %d\n", journal[9], journal[10], journal[11], answers[0], answers[1], answers[2]);

    brimusket_settlement settled =
        brimusket_settle(question, 4, journal, sizeof journal, 9, BRIMUSKET_ALL, true, text, sizeof text);
    printf("settled: %.*srecords %zu, dropped %zu\n", (int)settled.length, (const char *)text, settled.records, settled.dropped);
    settled = brimusket_settle(question, 4, journal, sizeof journal, 0, BRIMUSKET_ALL, true, NULL, 0);
    printf("no text: code %zu, length %zu\n", settled.report.code, settled.length);
    return 0;
}
