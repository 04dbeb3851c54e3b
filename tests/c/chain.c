/* The reasons behind a yes, as an engineer who embeds the library would print them: the chain of the desk's second case, and what
 * the header says of its refusals. */
#include "brimusket.h"

#include <stdio.h>
#include <string.h>

static const char policy[] =
    "H > S bank paid paid\n"
    "H S bank paid\n"
    "Q paid\n"
    "Q P bank paid\n"
    "Q S bank lien\n";

static uint8_t journal[BRIMUSKET_JOURNAL_BYTES];
static uint8_t answers[BRIMUSKET_QUERIES];
static uint8_t chain[BRIMUSKET_JOURNAL_BYTES];
static size_t used;

enum { NO_PREMISE = 0xFFFF };

/* The chain of a query from the journal as it stands. */
static brimusket_chained ask(size_t query, uint8_t *out, size_t out_len) {
    return brimusket_chain((const uint8_t *)policy, strlen(policy), journal, sizeof journal, used, query, out, out_len);
}

/* A formula's number: two bytes, high byte first. */
static unsigned number(const uint8_t *bytes) {
    return 256u * bytes[0] + bytes[1];
}

static void print_record(const uint8_t *record) {
    unsigned first = number(record + 5);
    unsigned second = number(record + 7);

    printf("rule %u for %u", (unsigned)record[2], number(record + 3));
    if (first != NO_PREMISE) {
        printf(" from %u", first);
    }
    if (second != NO_PREMISE) {
        printf(" and %u", second);
    }
    printf("\n");
}

/* A call that is refused leaves each byte of the buffer. */
static void print_refusal(const char *what, size_t query, size_t out_len) {
    uint8_t out[27], before[27];
    brimusket_chained refused;

    memset(out, 7, sizeof out);
    memcpy(before, out, sizeof out);
    refused = ask(query, out_len > 0 ? out : NULL, out_len);
    printf("%s: code %zu, records %zu, buffer %s\n", what, refused.code, refused.records,
           memcmp(out, before, sizeof out) == 0 ? "as it was" : "changed");
}

int main(void) {
    brimusket_report report =
        brimusket_run((const uint8_t *)policy, strlen(policy), journal, sizeof journal, 0, BRIMUSKET_ALL, answers,
                      sizeof answers);
    if (report.code != 0) {
        printf("refused %zu %zu\n", report.code, report.place);
        return 1;
    }
    used = report.used;

    brimusket_chained chained = ask(1, chain, sizeof chain);
    if (chained.code != 0) {
        printf("refused %zu %zu\n", chained.code, chained.place);
        return 1;
    }
    for (size_t i = 0; i < chained.records; i++) {
        print_record(chain + BRIMUSKET_RECORD_BYTES * i);
    }

    print_refusal("query 3", 3, 27);
    print_refusal("query 0", 0, 27);
    print_refusal("query 4", 4, 27);
    print_refusal("one byte short", 1, 26);
    print_refusal("no buffer", 1, 0);
    return 0;
}
