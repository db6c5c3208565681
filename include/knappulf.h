/* Knappulf: versions in the style of PEP 440, whole or in lumps, lists of version clauses, the range tables compiled
 * from them, and registers of such tables.
 *
 * Link crates/knappulf/out/libknappulf.a (`rt lib` in crates/knappulf makes it; x86-64 Linux). It needs memcpy and memset of
 * the C library and nothing else. Each function returns on every input, allocates nothing, keeps nothing between two
 * calls and writes only where this page says so; so calls from several threads need no lock.
 *
 * What is asked of a caller, as C can't say it and nothing checks it:
 * - a pointer is not null, also where its length is 0 (knappulf_bytes makes one of any pointer);
 * - a length is the true one, and at most PTRDIFF_MAX. Any such length is answered: a text or list of more than 1,024
 *   bytes is refused (number 8), and a buffer may be as long as it likes;
 * - what a call writes (fields, start, buffer, reader, answer) overlaps nothing else that is passed to the same call. Texts
 *   may be one and the same;
 * - bytes are bytes: a text needs no zero at its end, and is not changed.
 *
 * What every function with an `answer` returns is a refusal's number (KNAPPULF_..., below), and 0 for none; it
 * leaves its answer in `answer`, whatever stood there before. A refused call leaves fields and buffers as they were.
 */
#ifndef KNAPPULF_H
#define KNAPPULF_H

#include <stddef.h>
#include <stdint.h>

#ifdef __cplusplus
extern "C" {
#endif

/* Numbers of refusals. */
enum {
    KNAPPULF_NO_LEADING_NUMBER = 1,
    KNAPPULF_NO_LEADING_RELEASE_NUMBER = 2,
    KNAPPULF_NUMBER_TOO_BIG = 3,
    KNAPPULF_LOCAL_EMPTY = 4,
    KNAPPULF_UNEXPECTED_END = 5,
    KNAPPULF_WILDCARD = 6,
    KNAPPULF_WILDCARD_NOT_TRAILING = 7,
    KNAPPULF_TOO_LONG = 8,
    KNAPPULF_RELEASE_TOO_LONG = 9,
    KNAPPULF_LABEL_TOO_LONG = 10,
    KNAPPULF_BUFFER_TOO_SHORT = 11,
    KNAPPULF_EMPTY_CLAUSE = 12,
    KNAPPULF_NO_OPERATOR = 13,
    KNAPPULF_WILDCARD_MISPLACED = 14,
    KNAPPULF_LABEL_IN_CLAUSE = 15,
    KNAPPULF_SHORT_COMPATIBLE = 16,
    KNAPPULF_TOO_MANY_CLAUSES = 17,
    KNAPPULF_BAD_TABLE = 18,
    KNAPPULF_TOO_MANY_ENTRIES = 30,
    KNAPPULF_IDENTIFIER_ZERO = 31,
    KNAPPULF_IDENTIFIER_TAKEN = 32,
    KNAPPULF_ENTRY_OUTSIDE = 33
};

typedef struct knappulf_answer {
    uint64_t value; /* each function says what it is; 0 where the call is refused */
    uint64_t place; /* of a refusal, in bytes from 0; for number 11 the length that is needed; of a register the guilty
                     * entry's index, from 0; else 0 */
    uint64_t of;    /* what is refused: 1 the first text, list, table or register, or the buffer; 2 the second text or
                     * the version; else 0 */
} knappulf_answer;

/* A segment of a local label. */
typedef struct knappulf_segment_field {
    uint64_t is_text; /* 1 for text, 0 for a number */
    uint64_t number;  /* 0 for text */
    uint64_t start;   /* its bytes in the text: the first, and the one after the last */
    uint64_t end;
} knappulf_segment_field;

/* What a version says. Of the two arrays only the first so many entries count. */
typedef struct knappulf_version {
    uint64_t epoch;
    uint64_t pre_kind; /* 0 none, 1 a, 2 b, 3 rc */
    uint64_t pre_number;
    uint64_t has_post; /* 0 or 1 */
    uint64_t post_number;
    uint64_t has_dev; /* 0 or 1 */
    uint64_t dev_number;
    uint64_t release_count; /* at most 16 */
    uint64_t segment_count; /* at most 16 */
    uint64_t release[16];
    knappulf_segment_field segments[16];
} knappulf_version;

/* A buffer of so many bytes holds the normal text of any version. */
#define KNAPPULF_NORMAL_MOST 1033

/* The same pointer, or one to no bytes where it is null: for callers whose empty text may be null. */
static inline const uint8_t *knappulf_bytes(const void *bytes)
{
    return (const uint8_t *)(bytes ? bytes : "");
}

/* Reads a version. The value is 0. */
uint8_t knappulf_read(const uint8_t *text, size_t text_length, knappulf_version *fields, knappulf_answer *answer);

/* Reads a version that `.*` may follow. The value is 1 where it does, else 0. */
uint8_t knappulf_pattern(const uint8_t *text, size_t text_length, knappulf_version *fields, knappulf_answer *answer);

/* The text segment with that index, from 0, of a version's label: returns its length and leaves in `start` where it
 * begins in the text. Both are 0 for a number, a missing segment or a refused text. */
size_t knappulf_segment(const uint8_t *text, size_t text_length, size_t index, uint64_t *start);

/* Writes a version's normal text to the front of the buffer. The value is its length; what lies after stays. */
uint8_t knappulf_normal(const uint8_t *text, size_t text_length, uint8_t *buffer, size_t buffer_length, knappulf_answer *answer);

/* The value is 0 where the first version is less, 1 where they are equal, 2 where it is greater. */
uint8_t knappulf_compare(const uint8_t *first, size_t first_length, const uint8_t *second, size_t second_length, knappulf_answer *answer);

/* The value is the packed word of a small version, and 0 where the version has none. Words compare as versions do. */
uint8_t knappulf_word(const uint8_t *text, size_t text_length, knappulf_answer *answer);

/* The value is how many clauses the list has. */
uint8_t knappulf_check(const uint8_t *list, size_t list_length, knappulf_answer *answer);

/* The value is 1 where every clause of the list accepts the version, else 0. */
uint8_t knappulf_accepts(const uint8_t *list, size_t list_length, const uint8_t *version, size_t version_length, knappulf_answer *answer);

/* Writes the range table of a list to the front of the buffer. The value is its length; what lies after stays. */
uint8_t knappulf_compile(const uint8_t *list, size_t list_length, uint8_t *buffer, size_t buffer_length, knappulf_answer *answer);

/* The value is 1 where the table holds the version, else 0. */
uint8_t knappulf_lookup(const uint8_t *table, size_t table_length, const uint8_t *version, size_t version_length, knappulf_answer *answer);

/* A reader of a version that comes in lumps. Its bytes are the library's own: pass its address, and copy or move it as
 * any struct. All zeros are a new reader (KNAPPULF_READER_NEW); no bytes are a wrong one. */
typedef struct knappulf_reader {
    uint8_t bytes[1027];
} knappulf_reader;

#define KNAPPULF_READER_NEW {{0}}

/* Takes the next lump, of any length, also none: in time that goes by its length. Returns 1 where there is a verdict, so
 * that no further byte counts until a reset, and else 0. There is one from the end mark on, and as soon as the 1,025th
 * byte has come. */
uint8_t knappulf_reader_take(knappulf_reader *reader, const uint8_t *lump, size_t lump_length);

/* The end mark: nothing of the text is missing. */
void knappulf_reader_end(knappulf_reader *reader);

/* Makes the reader a new one. */
void knappulf_reader_reset(knappulf_reader *reader);

/* What the reader says: as knappulf_read of the whole text that came, however it was cut. Returns KNAPPULF_NO_VERDICT
 * while there is none, which is no refusal, and leaves the fields as they were, as it does for a refused text. Places
 * count from the text's first byte. */
uint8_t knappulf_reader_verdict(const knappulf_reader *reader, knappulf_version *fields, knappulf_answer *answer);

#define KNAPPULF_NO_VERDICT 255

/* How long the text is that came, for the functions on this page that take one: it lies at reader->bytes, and segments
 * of its label are parts of it. It has no byte before the verdict, and one that is too long has 1,025, so that each of
 * them refuses it as it would the text that came:
 *
 *     knappulf_normal(reader->bytes, knappulf_reader_held(reader), buffer, room, &answer);
 */
size_t knappulf_reader_held(const knappulf_reader *reader);

/* An entry of a register: an identifier from 1 to 65535, and where its table lies in the buffer. */
typedef struct knappulf_entry {
    uint16_t id;
    size_t start;
    size_t length;
} knappulf_entry;

/* Which tables of a register hold the version. The register has an entry for each identifier, at most 64, and its table
 * is the bytes of the buffer from a start on, so many as the length says; a start or a length that is missing is 0.
 * Tables may overlap, and two entries may have the same one. The value is the lowest identifier (KNAPPULF_LOWEST) and
 * the second lowest (KNAPPULF_SECOND) of those whose tables do: 0 for each that there is not. */
uint8_t knappulf_register(const uint16_t *ids, size_t ids_length, const size_t *starts, size_t starts_length, const size_t *lengths,
    size_t lengths_length, const uint8_t *buffer, size_t buffer_length, const uint8_t *version, size_t version_length,
    knappulf_answer *answer);

#define KNAPPULF_LOWEST(value) ((uint16_t)((value) % 65536))
#define KNAPPULF_SECOND(value) ((uint16_t)((value) / 65536))

/* The same, of a list of entries. */
static inline uint8_t knappulf_register_entries(const knappulf_entry *entries, size_t count, const uint8_t *buffer,
    size_t buffer_length, const uint8_t *version, size_t version_length, knappulf_answer *answer)
{
    uint16_t ids[65];
    size_t starts[65], lengths[65], n = count < 65 ? count : 65; /* a 65th entry is one too many, whatever follows */
    for (size_t i = 0; i < n; i++) {
        ids[i] = entries[i].id;
        starts[i] = entries[i].start;
        lengths[i] = entries[i].length;
    }
    return knappulf_register(ids, n, starts, n, lengths, n, buffer, buffer_length, version, version_length, answer);
}

#ifdef __cplusplus
}
#endif

#endif
