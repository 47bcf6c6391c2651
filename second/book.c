// Reads a file of bookings from standard input: a table is begun, and two desks add streams and withdraw them, a line each.
// Prints the reply to each line, and then the finished table as notes. Lines are written as in docs/NOTES.md.
#include "booking.h"

#include <inttypes.h>
#include <stdio.h>
#include <string.h>

#define BYTES_MAX 65536
#define NUMBERS_MAX 5

enum word { BEGIN, ADD, WITHDRAW, WORD_COUNT };

// A word, how many numbers stand behind it, and the most that each of them may be.
struct form {
    const char *word;
    size_t count;
    uint64_t most[NUMBERS_MAX];
};

static const struct form forms[WORD_COUNT] = {
    // begin W H k LIMIT1 LIMIT2
    [BEGIN] = {"begin", 5, {UINT32_MAX, UINT32_MAX, UINT32_MAX, UINT64_MAX, UINT64_MAX}},
    // add DESK e p
    [ADD] = {"add", 3, {UINT64_MAX, UINT32_MAX, UINT32_MAX}},
    // withdraw DESK n
    [WITHDRAW] = {"withdraw", 2, {UINT64_MAX, UINT64_MAX}},
};

struct line {
    enum word word;
    uint64_t numbers[NUMBERS_MAX];
};

// The lines of a file that are not blank. There are fewer of them than bytes.
struct lines {
    struct line at[BYTES_MAX];
    size_t count;
};

// Some bytes of the file, up to the end and without it.
struct text {
    const char *start;
    const char *end;
};

// --- Reading ---

static bool is_empty(struct text t)
{
    return t.start == t.end;
}

// Up to the first such byte, or all of it.
static struct text up_to(struct text t, char byte)
{
    const char *found = is_empty(t) ? NULL : memchr(t.start, byte, (size_t)(t.end - t.start));
    return (struct text){t.start, found == NULL ? t.end : found};
}

// What a line says: without "a carriage return right before the newline, or at the end", and then without its comment.
static struct text said_in(struct text line)
{
    if (!is_empty(line) && line.end[-1] == '\r')
        line.end--;
    return up_to(line, '#');
}

static bool is_gap(char byte)
{
    return byte == ' ' || byte == '\t';
}

// Takes the next word off a text: an empty one where there is none.
static struct text next_word(struct text *rest)
{
    while (!is_empty(*rest) && is_gap(*rest->start))
        rest->start++;
    struct text word = {rest->start, rest->start};
    while (word.end < rest->end && !is_gap(*word.end))
        word.end++;
    rest->start = word.end;
    return word;
}

// Which word it is; WORD_COUNT if it is none.
static enum word word_of(struct text t)
{
    size_t length = (size_t)(t.end - t.start);
    enum word word = BEGIN;
    while (word < WORD_COUNT && (strlen(forms[word].word) != length || memcmp(forms[word].word, t.start, length) != 0))
        word++;
    return word;
}

// Reads decimal digits, of which there may be zeros in front. False if it is no number, or a larger one than it may be.
static bool read_number(struct text t, uint64_t most, uint64_t *number)
{
    *number = 0;
    for (const char *at = t.start; at < t.end; at++) {
        if (*at < '0' || *at > '9')
            return false;
        uint64_t digit = (uint64_t)(*at - '0');
        if (*number > (most - digit) / 10)
            return false;
        *number = *number * 10 + digit;
    }
    return !is_empty(t);
}

// False if there is a number too few or too many, or one that is not as its word takes it.
static bool read_numbers(struct text rest, const struct form *form, uint64_t *numbers)
{
    for (size_t i = 0; i < form->count; i++)
        if (!read_number(next_word(&rest), form->most[i], &numbers[i]))
            return false;
    return is_empty(next_word(&rest));
}

// Takes a line, or skips a blank one. False if it is wrong: the table is begun first, and once.
static bool take_line(struct lines *lines, struct text said)
{
    struct line *l = &lines->at[lines->count];
    struct text word = next_word(&said);
    if (is_empty(word))
        return true;
    l->word = word_of(word);
    if (l->word == WORD_COUNT || (l->word == BEGIN) != (lines->count == 0))
        return false;
    if (!read_numbers(said, &forms[l->word], l->numbers))
        return false;
    lines->count++;
    return true;
}

// The number of the first line that is wrong, or 0. The last line may lack its newline.
static size_t read_lines(struct lines *lines, struct text file)
{
    for (size_t number = 1; !is_empty(file); number++) {
        struct text line = up_to(file, '\n');
        if (!take_line(lines, said_in(line)))
            return number;
        file.start = line.end == file.end ? file.end : line.end + 1;
    }
    return 0;
}

// --- Booking ---

static struct booking_reply book_line(struct booking_table *b, const struct line *l)
{
    const uint64_t *n = l->numbers;
    switch (l->word) {
    case BEGIN:
        return booking_begin(b, (uint32_t)n[0], (uint32_t)n[1], (uint32_t)n[2], &n[3]);
    case ADD:
        return booking_add(b, n[0], (struct reservation){(uint32_t)n[1], (uint32_t)n[2]});
    default:
        return booking_withdraw(b, n[0], n[1]);
    }
}

static void print_notes(const struct table *t)
{
    printf("worst %" PRIu32 "\nspan %" PRIu32 "\npadding %" PRIu32 "\n", t->worst, t->span, t->padding);
    for (uint32_t i = 0; i < t->count; i++)
        printf("stream %" PRIu32 " %" PRIu32 "\n", t->reservations[i].reserved, t->reservations[i].period);
}

// A table whose beginning was refused is not sound, and is not finished.
static void book(const struct lines *lines)
{
    struct booking_table b = {0};
    struct table finished;
    for (size_t i = 0; i < lines->count; i++) {
        struct booking_reply r = book_line(&b, &lines->at[i]);
        printf("%d %" PRIu64 "\n", (int)r.number, r.value);
    }
    if (booking_finish(&b, &finished) == TOLD)
        print_notes(&finished);
}

// What is wrong is told on standard error, in one line, and nothing is printed.
int main(void)
{
    static char bytes[BYTES_MAX + 1];
    static struct lines lines;
    size_t size = fread(bytes, 1, sizeof bytes, stdin);
    if (ferror(stdin)) {
        fprintf(stderr, "book: cannot read standard input\n");
        return 0;
    }
    if (size > BYTES_MAX) {
        fprintf(stderr, "book: the file is longer than %d bytes\n", BYTES_MAX);
        return 0;
    }
    size_t wrong = read_lines(&lines, (struct text){bytes, bytes + size});
    if (wrong != 0) {
        fprintf(stderr, "line %zu: no line of bookings that may stand here\n", wrong);
        return 0;
    }
    if (lines.count == 0) {
        fprintf(stderr, "end: no table is begun\n");
        return 0;
    }
    book(&lines);
    return 0;
}
