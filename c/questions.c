/* Answers the questions of docs/PROTOCOL.md on standard input through the library's header: a test of the boundary,
 * and an example of each call. What is no question is answered `not a question`. */
#include <knappulf.h>

#include <inttypes.h>
#include <stdio.h>
#include <stdlib.h>
#include <string.h>

_Static_assert(sizeof(knappulf_version) == 89 * sizeof(uint64_t), "the fields are 89 numbers");
_Static_assert(sizeof(knappulf_reader) == 1027, "a reader is 1,027 bytes");
_Static_assert(sizeof(knappulf_answer) == 3 * sizeof(uint64_t), "an answer is three numbers");

enum { LONGEST_LINE = 65536, MOST_ROOM = 16384, MOST_WORDS = LONGEST_LINE + 1, MOST_ENTRIES = 70 };

typedef struct bytes {
    uint8_t at[LONGEST_LINE / 2];
    size_t length;
} bytes;

static int digit_of(char c)
{
    if ('0' <= c && c <= '9')
        return c - '0';
    return 'a' <= c && c <= 'f' ? c - 'a' + 10 : -1;
}

/* Whether a word is bytes in hexadecimal digits. */
static int decode(const char *word, bytes *out)
{
    size_t length = strlen(word);
    out->length = 0;
    if (strcmp(word, "-") == 0)
        return 1;
    if (length == 0 || length % 2 != 0)
        return 0;
    for (size_t i = 0; i < length; i += 2) {
        int high = digit_of(word[i]), low = digit_of(word[i + 1]);
        if (high < 0 || low < 0)
            return 0;
        out->at[out->length++] = (uint8_t)(high * 16 + low);
    }
    return 1;
}

static void say_bytes(const uint8_t *at, size_t length)
{
    if (length == 0)
        putchar('-');
    for (size_t i = 0; i < length; i++)
        printf("%02x", at[i]);
}

static void say_part(uint64_t there, uint64_t number)
{
    if (there)
        printf(" %" PRIu64, number);
    else
        printf(" -");
}

static void say_segment(const knappulf_segment_field *segment)
{
    if (segment->is_text)
        printf("t%" PRIu64 ":%" PRIu64, segment->start, segment->end);
    else
        printf("n%" PRIu64, segment->number);
}

static void say_fields(const knappulf_version *version)
{
    static const char *kinds[] = {"", "a", "b", "rc"};
    printf(" %" PRIu64 " ", version->epoch);
    for (uint64_t i = 0; i < version->release_count; i++)
        printf("%s%" PRIu64, i ? "." : "", version->release[i]);
    if (version->pre_kind)
        printf(" %s%" PRIu64, kinds[version->pre_kind], version->pre_number);
    else
        printf(" -");
    say_part(version->has_post, version->post_number);
    say_part(version->has_dev, version->dev_number);
    printf(version->segment_count ? " " : " -");
    for (uint64_t i = 0; i < version->segment_count; i++) {
        printf(i ? "," : "");
        say_segment(&version->segments[i]);
    }
}

static void say_refusal(const char *who, uint8_t number, const knappulf_answer *answer)
{
    printf("%s %d %" PRIu64, who, number, answer->place);
}

typedef uint8_t reader(const uint8_t *, size_t, knappulf_version *, knappulf_answer *);

static void ask_fields(reader *read, const bytes *text)
{
    knappulf_version version;
    knappulf_answer answer;
    uint8_t number = read(text->at, text->length, &version, &answer);
    if (number) {
        say_refusal("no", number, &answer);
        return;
    }
    printf(answer.value ? "ok*" : "ok");
    say_fields(&version);
}

typedef uint8_t writer(const uint8_t *, size_t, uint8_t *, size_t, knappulf_answer *);

static void ask_writer(writer *write, const bytes *text, size_t room)
{
    static uint8_t buffer[MOST_ROOM];
    knappulf_answer answer;
    memset(buffer, 0xa5, room);
    uint8_t number = write(text->at, text->length, buffer, room, &answer);
    if (number)
        say_refusal("no", number, &answer);
    else
        printf("ok %" PRIu64, answer.value);
    putchar(' ');
    say_bytes(buffer, room);
}

typedef uint8_t judge(const uint8_t *, size_t, const uint8_t *, size_t, knappulf_answer *);

/* values[v] is the word for the value v, and refused[w - 1] the one for a refusal of w. */
static void ask_judge(judge *ask, const bytes *first, const bytes *second, const char *const values[], const char *const refused[])
{
    knappulf_answer answer;
    uint8_t number = ask(first->at, first->length, second->at, second->length, &answer);
    if (number)
        say_refusal(refused[answer.of - 1], number, &answer);
    else
        printf("%s", values[answer.value]);
}

static void ask_segment(const bytes *text, size_t index)
{
    uint64_t start;
    size_t length = knappulf_segment(text->at, text->length, index, &start);
    say_bytes(text->at + start, length);
}

static void ask_word(const bytes *text)
{
    knappulf_answer answer;
    uint8_t number = knappulf_word(text->at, text->length, &answer);
    if (number)
        say_refusal("no", number, &answer);
    else if (answer.value)
        printf("word %016" PRIx64, answer.value);
    else
        printf("none");
}

static void ask_list(const bytes *list)
{
    knappulf_answer answer;
    uint8_t number = knappulf_check(list->at, list->length, &answer);
    if (number)
        say_refusal("no", number, &answer);
    else
        printf("ok %" PRIu64, answer.value);
}

/* Whether a word is a number of at most so much. */
static int number_of(const char *word, uint64_t most, uint64_t *out)
{
    *out = 0;
    if (!*word)
        return 0;
    for (; *word; word++) {
        if (*word < '0' || '9' < *word || (most - (uint64_t)(*word - '0')) / 10 < *out)
            return 0;
        *out = *out * 10 + (uint64_t)(*word - '0');
    }
    return 1;
}

static int ask_one(const char *kind, const bytes *text)
{
    if (strcmp(kind, "read") == 0)
        ask_fields(knappulf_read, text);
    else if (strcmp(kind, "pattern") == 0)
        ask_fields(knappulf_pattern, text);
    else if (strcmp(kind, "word") == 0)
        ask_word(text);
    else if (strcmp(kind, "list") == 0)
        ask_list(text);
    else
        return 0;
    return 1;
}

static int ask_with_number(const char *kind, const bytes *text, const char *word)
{
    uint64_t n;
    if (strcmp(kind, "segment") == 0 && number_of(word, UINT64_MAX, &n))
        ask_segment(text, n);
    else if (strcmp(kind, "normal") == 0 && number_of(word, MOST_ROOM, &n))
        ask_writer(knappulf_normal, text, n);
    else if (strcmp(kind, "compile") == 0 && number_of(word, MOST_ROOM, &n))
        ask_writer(knappulf_compile, text, n);
    else
        return 0;
    return 1;
}

static int ask_two(const char *kind, const bytes *first, const bytes *second)
{
    static const char *const orders[] = {"less", "equal", "greater"}, *const both[] = {"first", "second"};
    static const char *const no_or_yes[] = {"no", "yes"};
    static const char *const of_list[] = {"list", "version"}, *const of_table[] = {"table", "version"};
    if (strcmp(kind, "compare") == 0)
        ask_judge(knappulf_compare, first, second, orders, both);
    else if (strcmp(kind, "accepts") == 0)
        ask_judge(knappulf_accepts, first, second, no_or_yes, of_list);
    else if (strcmp(kind, "lookup") == 0)
        ask_judge(knappulf_lookup, first, second, no_or_yes, of_table);
    else
        return 0;
    return 1;
}

/* Cuts a text at a separator: into so many parts at most, and says how many there are. */
static size_t cut(char *text, char separator, char *parts[], size_t most)
{
    size_t count = 0;
    for (char *part = text; part; count++) {
        if (count < most)
            parts[count] = part;
        part = strchr(part, separator);
        if (part)
            *part++ = 0;
    }
    return count;
}

/* Reads entries `ID:START:LENGTH` with commas between two, `-` for none; so many as there is room for are kept. */
static int entries_of(char *word, knappulf_entry entries[MOST_ENTRIES], size_t *count)
{
    *count = 0;
    if (strcmp(word, "-") == 0)
        return 1;
    for (char *next = word; next; (*count)++) {
        char *fields[3], *entry = next;
        uint64_t numbers[3];
        next = strchr(entry, ',');
        if (next)
            *next++ = 0;
        if (cut(entry, ':', fields, 3) != 3)
            return 0;
        for (int i = 0; i < 3; i++)
            if (!number_of(fields[i], i ? UINT64_MAX : UINT16_MAX, &numbers[i]))
                return 0;
        if (*count < MOST_ENTRIES)
            entries[*count] = (knappulf_entry){(uint16_t)numbers[0], numbers[1], numbers[2]};
    }
    return 1;
}

static int ask_register(char *word, const bytes *buffer, const bytes *version)
{
    static knappulf_entry entries[MOST_ENTRIES];
    size_t count;
    knappulf_answer answer;
    if (!entries_of(word, entries, &count))
        return 0;
    uint8_t number = knappulf_register_entries(entries, count, buffer->at, buffer->length, version->at, version->length, &answer);
    if (number)
        say_refusal(answer.of == 1 ? "register" : "version", number, &answer);
    else if (KNAPPULF_SECOND(answer.value))
        printf("two %d %d", KNAPPULF_LOWEST(answer.value), KNAPPULF_SECOND(answer.value));
    else if (answer.value)
        printf("one %d", KNAPPULF_LOWEST(answer.value));
    else
        printf("none");
    return 1;
}

/* Whether reading the text that is held gives the same refusal, or none. */
static int held_alike(const knappulf_reader *reader, uint8_t number, const knappulf_answer *answer)
{
    knappulf_version version;
    knappulf_answer held;
    return knappulf_read(reader->bytes, knappulf_reader_held(reader), &version, &held) == number && held.place == answer->place;
}

/* An event, and what the reader says after it. */
static void ask_event(knappulf_reader *reader, const char *word)
{
    static bytes lump;
    knappulf_version version;
    knappulf_answer answer;
    if (strcmp(word, "end") == 0)
        knappulf_reader_end(reader);
    else if (strcmp(word, "reset") == 0)
        knappulf_reader_reset(reader);
    else if (decode(word, &lump))
        knappulf_reader_take(reader, lump.at, lump.length);
    uint8_t number = knappulf_reader_verdict(reader, &version, &answer);
    if (number == KNAPPULF_NO_VERDICT)
        printf("none");
    else if (!held_alike(reader, number, &answer))
        printf("the text that is held is another");
    else if (number)
        say_refusal("no", number, &answer);
    else {
        printf("ok");
        say_fields(&version);
    }
}

static int is_event(const char *word)
{
    static bytes lump;
    return strcmp(word, "end") == 0 || strcmp(word, "reset") == 0 || decode(word, &lump);
}

/* Nothing is said of a line with a word that is no event. */
static int ask_fragments(char *words[], size_t count)
{
    knappulf_reader reader = KNAPPULF_READER_NEW;
    for (size_t i = 1; i < count; i++)
        if (!is_event(words[i]))
            return 0;
    for (size_t i = 1; i < count; i++) {
        printf(i > 1 ? " | " : "");
        ask_event(&reader, words[i]);
    }
    return count > 1;
}

static int answer_line(char *line)
{
    static bytes first, second;
    static char *words[MOST_WORDS];
    size_t count = cut(line, ' ', words, MOST_WORDS);
    if (strcmp(words[0], "fragments") == 0)
        return ask_fragments(words, count);
    if (count == 4 && strcmp(words[0], "register") == 0)
        return decode(words[2], &first) && decode(words[3], &second) && ask_register(words[1], &first, &second);
    if (count < 2 || !decode(words[1], &first))
        return 0;
    if (count == 2)
        return ask_one(words[0], &first);
    if (count != 3)
        return 0;
    if (ask_with_number(words[0], &first, words[2]))
        return 1;
    return decode(words[2], &second) && ask_two(words[0], &first, &second);
}

int main(void)
{
    char *line = NULL;
    size_t room = 0;
    ssize_t length;
    while ((length = getline(&line, &room, stdin)) >= 0) {
        if (length && line[length - 1] == '\n')
            line[--length] = 0;
        if (length > LONGEST_LINE || (size_t)length != strlen(line) || !answer_line(line))
            printf("not a question");
        putchar('\n');
    }
    free(line);
    return 0;
}
