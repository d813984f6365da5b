/* The desk's page of a session: bench < session | desk. It reads on standard input what bench prints, takes the last
 * scan and prints its page: a line for each cabinet, and one for the house.
 *
 * A scan line is one whose second word is `scan`: EVENT scan NODE R R .., one space between words, where EVENT and NODE
 * are decimal numbers and each R, for nodes 1 to n, is a report in 16 hexadecimal digits with small letters, or - where
 * there is none. Every other line is passed over, whatever its bytes and its length.
 *
 * Exit status: 0 with the page, 1 where there was no scan, 2 where input is broken (a scan line of another form, or one
 * that input ended in, a failed read), 3 where output cannot be written. With 1 and 2 nothing is printed.
 *
 * Nothing is allocated. */
#include "snapshot.h"
#include <stdio.h>
#include <stdlib.h>
#include <string.h>

enum { PRINTED = 0, NO_SCAN = 1, BROKEN_INPUT = 2, NO_OUTPUT = 3 }; /* exit status */

#define TAG (SNAPSHOT_ENTRY - SNAPSHOT_REPORT) /* the bytes of an entry that stand before the report */
#define DIGITS 19                              /* so many decimal digits are always a number of 64 bits */

/* The last word that was read: its length, its first bytes (no word that means anything has more), and what stood
 * behind it: a space, a line feed or EOF. */
static struct {
    size_t length;
    char bytes[DIGITS];
    int behind;
} word;

static uint8_t view[SNAPSHOT_VIEW];

static void stop(int status, const char *why)
{
    fprintf(stderr, "%s\n", why);
    exit(status);
}

static void next_word(void)
{
    word.length = 0;
    while ((word.behind = getchar()) != EOF && word.behind != ' ' && word.behind != '\n') {
        if (word.length < sizeof word.bytes)
            word.bytes[word.length] = (char)word.behind;
        word.length++;
    }
}

static bool word_is(const char *text)
{
    return word.length == strlen(text) && memcmp(word.bytes, text, word.length) == 0;
}

/* The number that the word is; 0, which neither an event nor a node has, for any other word. */
static uint64_t number(void)
{
    uint64_t value = 0;
    if (word.length > sizeof word.bytes)
        return 0;
    for (size_t i = 0; i < word.length; i++) {
        if (word.bytes[i] < '0' || word.bytes[i] > '9')
            return 0;
        value = 10 * value + (uint64_t)(word.bytes[i] - '0');
    }
    return value;
}

/* Makes an entry of zeros that of the word. Beside a report it has tag 1: a page does not tell tags. */
static bool put_entry(uint8_t entry[SNAPSHOT_ENTRY])
{
    static const char digits[] = "0123456789abcdef";
    if (word_is("-"))
        return true;
    if (word.length != 2 * SNAPSHOT_REPORT)
        return false;
    entry[TAG - 1] = 1;
    for (size_t i = 0; i < word.length; i++) {
        const char *digit = memchr(digits, word.bytes[i], strlen(digits));
        if (digit == NULL)
            return false;
        entry[TAG + i / 2] = (uint8_t)(entry[TAG + i / 2] << 4 | (digit - digits));
    }
    return true;
}

/* Reads the rest of a scan line into the view. Answers n, or 0 where it is not of the form. */
static size_t read_scan(void)
{
    size_t n = 0;
    memset(view, 0, sizeof view);
    next_word();
    uint64_t node = number();
    while (word.behind == ' ') {
        next_word();
        if (n == SNAPSHOT_NODES || !put_entry(view + SNAPSHOT_ENTRY * n))
            return 0;
        n++;
    }
    return word.behind == '\n' && 1 <= node && node <= n ? n : 0;
}

/* Reads all lines; the view of the last scan stays. Answers its n, or 0 where there was none. */
static size_t last_scan(void)
{
    size_t n = 0;
    do {
        next_word();
        bool counted = number() > 0;
        if (word.behind == ' ') {
            next_word();
            if (word_is("scan")) {
                n = counted && word.behind == ' ' ? read_scan() : 0;
                if (n == 0)
                    stop(BROKEN_INPUT, "a scan line has another form than those of bench");
            }
        }
        while (word.behind == ' ')
            next_word();
    } while (word.behind != EOF);
    if (ferror(stdin))
        stop(BROKEN_INPUT, "input cannot be read");
    return n;
}

int main(void)
{
    static uint8_t page[SNAPSHOT_PAGE(SNAPSHOT_NODES)];
    size_t n = last_scan(), length = 0;
    if (n == 0)
        stop(NO_SCAN, "no scan ended: no page");
    if (snapshot_page(n, view, SNAPSHOT_ENTRY * n, page, sizeof page, &length) != SNAPSHOT_TAKEN)
        stop(BROKEN_INPUT, "the page is refused");
    if (fwrite(page, 1, length, stdout) != length || fflush(stdout) != 0)
        stop(NO_OUTPUT, "output cannot be written");
    return PRINTED;
}
