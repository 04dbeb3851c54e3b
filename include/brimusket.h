/* Brimusket: which lien messages a registry may record, and whether its journal holds the reason.
 *
 * A run reads a policy file, keeps what is good of a journal, adds at most `limit` records and answers the file's queries; a chain
 * has the reasons behind a yes. Whatever the buffers hold, and whatever `used`, `limit` and `query` are, a call gives an answer.
 * It allocates nothing and keeps nothing between calls; it uses less than 192 KiB of stack.
 *
 * BEFORE YOU ACT ON A YES, bring the first `used` bytes of the journal to safety: they hold the record that the yes rests on. The
 * first call has `used` 0; each later one has those bytes at the front of its journal buffer, and their number as `used`.
 *
 * Linking, on x86-64: `bin/library` writes target/staticlib/libbrimusket.a, and
 *     cc -I include yours.c target/staticlib/libbrimusket.a
 * is all; README.md, "From C or Rust", has the same for Rust. docs/CODES.md says what each code means. */
#ifndef BRIMUSKET_H
#define BRIMUSKET_H

#include <stdbool.h>
#include <stddef.h>
#include <stdint.h>

#ifdef __cplusplus
extern "C" {
#endif

/* What a run returns. After a refusal: its code and place, kept 0, added 0, not finished, used as it was given; journal and answers
 * are byte for byte as they were. */
typedef struct brimusket_report {
    size_t code;   /* 0, or the code of the refusal, 1 to 8 */
    size_t place;  /* where in the file the refused line starts; 0 where the code names no line */
    size_t kept;   /* records kept of the journal as it was given */
    size_t added;  /* records added behind them */
    bool finished; /* no record is left to add */
    size_t used;   /* the journal's new used length, 9 * (kept + added); after code 7 it is the caller's own, and larger than
                      the buffer */
} brimusket_report;

/* What brimusket_settle returns. */
typedef struct brimusket_settlement {
    brimusket_report report;
    size_t records; /* whole records that the journal had; 0 after a refusal */
    size_t dropped; /* what was not kept of it: BRIMUSKET_NOTHING, BRIMUSKET_TORN or BRIMUSKET_MORE; nothing after a refusal */
    size_t length;  /* how many bytes of `text` are to be printed */
} brimusket_settlement;

/* What brimusket_chain returns. After a refusal: its code and place, and no records; `out` is byte for byte as it was. */
typedef struct brimusket_chained {
    size_t code;    /* 0, or the code of the refusal, 1 to 5, 7 or 31 to 33 */
    size_t place;   /* where in the file the refused line starts; 0 where the code names no line */
    size_t records; /* records of the chain */
} brimusket_chained;

/* Buffers of these lengths are long enough for every file; a file that is longer is refused with code 1. */
enum {
    BRIMUSKET_FILE_BYTES = 32768,
    BRIMUSKET_RECORD_BYTES = 9,
    BRIMUSKET_JOURNAL_BYTES = 36864,
    BRIMUSKET_QUERIES = 1024,
    BRIMUSKET_TEXT_BYTES = 65536
};

/* A limit that lets a call add all that is missing, whatever the file; a larger one does the same. */
enum {
    BRIMUSKET_ALL = 4096
};

/* What stands in `answers` for each query, in the file's order. */
enum {
    BRIMUSKET_NO = 0,
    BRIMUSKET_YES = 1,
    BRIMUSKET_OPEN = 2
};

/* What was not kept of a journal: nothing; a last record that was cut off, and nothing else; whole records, or bytes that are no
 * record's. */
enum {
    BRIMUSKET_NOTHING = 0,
    BRIMUSKET_TORN = 1,
    BRIMUSKET_MORE = 2
};

/* Each pointer has as many bytes behind it as its length says (a pointer with length 0 may be NULL), and no buffer that is written
 * to overlaps another: this alone is the caller's to see to, for all three functions.
 *
 * There are as many answers as the file has lines that begin with Q, and they stand at the front of `answers`; the bytes behind
 * them, and the journal's behind the new used length, stay as they were. */
brimusket_report brimusket_run(const uint8_t *file, size_t file_len,
                               uint8_t *journal, size_t journal_len,
                               size_t used, size_t limit,
                               uint8_t *answers, size_t answers_len);

/* The same run with the text to print in place of the answers: a line for each query, behind it the query itself where `questions`
 * is true, or the refusal alone. It goes to the front of `text`, whose other bytes stay. A text shorter than BRIMUSKET_TEXT_BYTES
 * has room for no answer: nothing is printed, and a file that asks something is refused with code 8. */
brimusket_settlement brimusket_settle(const uint8_t *file, size_t file_len,
                                      uint8_t *journal, size_t journal_len,
                                      size_t used, size_t limit, bool questions,
                                      uint8_t *text, size_t text_len);

/* The reasons behind a yes, and only those: the records that a query rests on, in the journal's order, the query's own last. Every
 * premise of one of them stands before it, and every one but the last is a premise of a later one. `query` counts the file's
 * queries from 1. What a run would keep of the journal's first `used` bytes is looked at; nothing is run, and the journal may be
 * shorter than a run needs it. The records go together to the front of `out`, whose other bytes stay; as many bytes as `used` are
 * enough for every chain. They may be taken as a journal for the same file, with 9 * records as `used`: a run that is not refused
 * keeps them all and answers the query with yes. */
brimusket_chained brimusket_chain(const uint8_t *file, size_t file_len,
                                  const uint8_t *journal, size_t journal_len,
                                  size_t used, size_t query,
                                  uint8_t *out, size_t out_len);

#ifdef __cplusplus
}
#endif

#endif
