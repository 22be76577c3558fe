/*
 * Replays a journal (docs/JOURNAL.md) through the C library: standard input to standard
 * output, the whole grammar, lines that are no statements too.
 *
 * Every route question is put twice, to oberkosz_route and to oberkosz_route_standing, since
 * each state here is one that the library handed back; where they differ the line says so.
 */
#include "oberkosz.h"

#include <inttypes.h>
#include <stdio.h>
#include <string.h>

enum { LINE_LIMIT = 262144, LIST_LIMIT = 65536, BUFFER_LIMIT = 65536, BEHIND = 64, LENT = 0xA5 };

static const char BYTES[] = "bytes in hex or -";
static const char LIST[] = "at most 65536 bytes in hex or -";
static const char NUMBER[] = "a decimal number below 18446744073709551616";
static const char BUFFER[] = "a decimal number up to 65536";

/* A line that is too long is kept up to its limit. */
static uint8_t line[LINE_LIMIT];
static uint8_t bytes_a[LINE_LIMIT / 2];
static uint8_t bytes_b[LINE_LIMIT / 2];
/* The bytes behind what is lent are looked at too. */
static uint8_t reply[BUFFER_LIMIT + BEHIND];
static struct oberkosz_state state;

/* A line as its words are taken from it, up to the first fault. */
struct reader {
    uint64_t line;
    size_t at, end;
    unsigned word;
    bool faulty;
};

struct word {
    const uint8_t *at;
    size_t size;
};

/* ---- words */
static struct word next_word(struct reader *r)
{
    while (r->at < r->end && line[r->at] == ' ')
        r->at++;
    struct word w = { line + r->at, 0 };
    while (r->at < r->end && line[r->at] != ' ') {
        r->at++;
        w.size++;
    }
    r->word++;
    return w;
}

static void fault(struct reader *r, const char *expected)
{
    printf("line %" PRIu64 ": word %u: expected %s\n", r->line, r->word, expected);
    r->faulty = true;
}

static bool is(struct word w, const char *text)
{
    return w.size == strlen(text) && memcmp(w.at, text, w.size) == 0;
}

/* The value of a hex digit in either case, 16 for a byte that is none. */
static uint8_t hex_value(uint8_t b)
{
    if ('0' <= b && b <= '9')
        return b - '0';
    if ('a' <= b && b <= 'f')
        return b - 'a' + 10;
    if ('A' <= b && b <= 'F')
        return b - 'A' + 10;
    return 16;
}

static bool all_hex(struct word w)
{
    for (size_t k = 0; k < w.size; k++)
        if (hex_value(w.at[k]) == 16)
            return false;
    return true;
}

/* "an even number of hex digits, two a byte, in either case, at least one byte; or `-`" */
static size_t take_bytes(struct reader *r, uint8_t *to, size_t limit, const char *expected)
{
    if (r->faulty)
        return 0;
    struct word w = next_word(r);
    if (is(w, "-"))
        return 0;
    if (w.size == 0 || w.size % 2 != 0 || limit < w.size / 2 || !all_hex(w)) {
        fault(r, expected);
        return 0;
    }
    for (size_t k = 0; k < w.size / 2; k++)
        to[k] = hex_value(w.at[2 * k]) * 16 + hex_value(w.at[2 * k + 1]);
    return w.size / 2;
}

/* "one or more of the digits 0 to 9, no sign"; zeros in front are allowed */
static uint64_t take_number(struct reader *r, uint64_t limit, const char *expected)
{
    if (r->faulty)
        return 0;
    struct word w = next_word(r);
    uint64_t value = 0;
    bool fits = w.size != 0;
    for (size_t k = 0; fits && k < w.size; k++) {
        uint8_t digit = w.at[k] - '0';
        fits = w.at[k] >= '0' && digit <= 9 && digit <= limit && value <= (limit - digit) / 10;
        value = fits ? value * 10 + digit : 0;
    }
    if (!fits)
        fault(r, expected);
    return value;
}

/* "exactly 16 hex digits" */
static uint64_t take_digits(struct reader *r)
{
    if (r->faulty)
        return 0;
    struct word w = next_word(r);
    if (w.size != 16 || !all_hex(w)) {
        fault(r, "16 hex digits");
        return 0;
    }
    uint64_t value = 0;
    for (size_t k = 0; k < 16; k++)
        value = value * 16 + hex_value(w.at[k]);
    return value;
}

/* Whether the statement is whole and nothing follows it. */
static bool ended(struct reader *r)
{
    if (!r->faulty && next_word(r).size != 0)
        fault(r, "the end of the line");
    return !r->faulty;
}

/* ---- answers */
static void put_bytes(const uint8_t *bytes, size_t size)
{
    if (size == 0)
        putchar('-');
    for (size_t k = 0; k < size; k++)
        printf("%02x", bytes[k]);
}

/* What is told alike of every call that is not GOOD. */
static void put_not_good(struct oberkosz_values values)
{
    if (values.status == OBERKOSZ_CHECK_CONDITION) {
        printf(" check ");
        put_bytes(values.sense, sizeof values.sense);
    } else if (values.status == OBERKOSZ_REFUSED) {
        printf(" refused %u", values.number);
    } else {
        printf(" status %u", values.status);
    }
}

static void put_plain(struct oberkosz_values values)
{
    if (values.status == OBERKOSZ_GOOD)
        printf(" good");
    else
        put_not_good(values);
    putchar('\n');
}

/* The first byte from n on that is not as it was lent; the end if there is none. */
static size_t spoiled_from(size_t n)
{
    while (n < sizeof reply && reply[n] == LENT)
        n++;
    return n;
}

/* The answer of a call that lent a buffer, and what became of the buffer. */
static void put_lent(const struct oberkosz_outcome *o)
{
    bool good = o->values.status == OBERKOSZ_GOOD;
    size_t delivered = good && o->delivered <= BUFFER_LIMIT ? o->delivered : 0;
    if (good) {
        printf(" good %zu ", o->delivered);
        put_bytes(reply, delivered);
    } else {
        put_not_good(o->values);
    }
    size_t spoiled = spoiled_from(delivered);
    if (spoiled < sizeof reply)
        printf(" spoiled %zu", spoiled);
    else if (good)
        printf(" kept");
    putchar('\n');
}

/* ---- statements */
static void setup(struct reader *r)
{
    size_t ids = take_bytes(r, bytes_a, sizeof bytes_a, BYTES);
    size_t luns = take_bytes(r, bytes_b, sizeof bytes_b, BYTES);
    if (!ended(r))
        return;
    struct oberkosz_outcome o = oberkosz_setup(bytes_a, ids, bytes_b, luns);
    state = o.state;
    printf("setup");
    put_plain(o.values);
}

static void command(struct reader *r)
{
    uint64_t initiator = take_number(r, UINT64_MAX, NUMBER);
    size_t cdb = take_bytes(r, bytes_a, sizeof bytes_a, BYTES);
    size_t list = take_bytes(r, bytes_b, LIST_LIMIT, LIST);
    uint64_t random = take_digits(r);
    size_t lent = take_number(r, BUFFER_LIMIT, BUFFER);
    if (!ended(r))
        return;
    memset(reply, LENT, sizeof reply);
    struct oberkosz_outcome o = oberkosz_command(state, initiator, bytes_a, cdb, bytes_b, list,
                                                 random, reply, lent);
    state = o.state;
    printf("command");
    put_lent(&o);
}

static void link_event(struct reader *r)
{
    uint64_t initiator = take_number(r, UINT64_MAX, NUMBER);
    if (!ended(r))
        return;
    struct oberkosz_outcome o = oberkosz_link_event(state, initiator);
    state = o.state;
    printf("link");
    put_plain(o.values);
}

static void route(struct reader *r)
{
    uint64_t initiator = take_number(r, UINT64_MAX, NUMBER);
    uint64_t lun = take_digits(r);
    if (!ended(r))
        return;
    struct oberkosz_opening o = oberkosz_route(state, initiator, lun);
    struct oberkosz_opening standing = oberkosz_route_standing(state, initiator, lun);
    printf("route");
    if (o.values.status == OBERKOSZ_GOOD)
        printf(" unit %u", o.unit);
    else
        put_not_good(o.values);
    printf(memcmp(&o, &standing, sizeof o) == 0 ? "\n" : " standing differs\n");
}

static void reach(struct reader *r)
{
    size_t lent = take_number(r, BUFFER_LIMIT, BUFFER);
    if (!ended(r))
        return;
    memset(reply, LENT, sizeof reply);
    struct oberkosz_outcome o = oberkosz_reach(state, reply, lent);
    state = o.state;
    printf("reach");
    put_lent(&o);
}

static void statement(struct reader *r)
{
    struct word w = next_word(r);
    if (is(w, "setup"))
        setup(r);
    else if (is(w, "command"))
        command(r);
    else if (is(w, "link"))
        link_event(r);
    else if (is(w, "route"))
        route(r);
    else if (is(w, "reach"))
        reach(r);
    else
        fault(r, "setup, command, link, route or reach");
}

/* ---- lines */
static bool read_line(size_t *size)
{
    size_t n = 0;
    int c;
    while ((c = getchar()) != EOF && c != '\n') {
        if (n < sizeof line)
            line[n] = (uint8_t)c;
        n++;
    }
    *size = n;
    return c != EOF || n != 0;
}

static void answer(uint64_t number, size_t size)
{
    if (size > LINE_LIMIT) {
        printf("line %" PRIu64 ": expected at most 262144 bytes\n", number);
        return;
    }
    if (size != 0 && line[size - 1] == '\r')
        size--;
    if (size == 0 || line[0] == '#')
        return;
    struct reader r = { .line = number, .end = size };
    statement(&r);
}

int main(void)
{
    if (!oberkosz_header_fits()) {
        fputs("replay: the library is another one than the header was made for\n", stderr);
        return 2;
    }
    /* "Before the first setup the coordinator is the one that a refused setup leaves" */
    state = oberkosz_setup(bytes_a, 1, bytes_b, 0).state;
    size_t size;
    for (uint64_t number = 1; read_line(&size); number++)
        answer(number, size);
    if (ferror(stdin) || fflush(stdout) != 0) {
        perror("replay");
        return 1;
    }
    return 0;
}
