/* Request lines answered through the exported surface, in the format of second/README.md: the program trials again, from C. A line that is no
   request is answered by `? no request`. */
#include <stdint.h>
#include <stdio.h>
#include <stdlib.h>
#include <string.h>
#include "clavirost.h"

#define MARK 61681           /* what each place of a result list holds before a call */
#define BYTE_MARK 241        /* the same in a list of bytes */
#define MOST 2048            /* places of a result list, a text or a file */
#define NUMBERS 16384

static uint32_t numbers[NUMBERS];
static size_t count, at;
static int good;             /* the line has been a request so far */

static uint32_t number(void)
{
    if (at >= count) { good = 0; return 0; }
    return numbers[at++];
}

typedef struct { const uint32_t *x; size_t length; } list;

static list numbers_list(void)
{
    list l = {numbers, number()};
    if (!good || count - at < l.length) { good = 0; l.length = 0; return l; }
    l.x = numbers + at;
    at += l.length;
    return l;
}

typedef struct { uint32_t p, n; size_t d, e; list labels, entries; } scheme;

static scheme a_scheme(void)
{
    scheme s;
    s.p = number(); s.n = number(); s.d = number(); s.e = number();
    s.labels = numbers_list(); s.entries = numbers_list();
    return s;
}

static uint8_t bytes[MOST];

static size_t a_text(void)
{
    list l = numbers_list();
    if (l.length > MOST) { good = 0; return 0; }
    for (size_t i = 0; i < l.length; i++) {
        if (l.x[i] > 255) good = 0;
        bytes[i] = l.x[i];
    }
    return l.length;
}

static size_t places(uint32_t *x)
{
    size_t length = number();
    if (length > MOST) { good = 0; return 0; }
    for (size_t i = 0; i < length; i++) x[i] = MARK;
    return length;
}

static int whole(void) { return good && at == count; }

static void say(const char *call, uint32_t said, const char *yes, const char *no)
{
    if (said == CLAVIROST_DONE) printf("%s OK", call);
    else if (said == CLAVIROST_YES) printf("%s %s", call, yes);
    else if (said == CLAVIROST_NO) printf("%s %s", call, no);
    else printf("%s REFUSED %u", call, said);
}

static void show(const uint32_t *x, size_t length)
{
    printf(" |");
    if (length == 0) printf(" ");
    for (size_t i = 0; i < length; i++) printf(" %u", x[i]);
}

#define SCHEME(s) s.p, s.n, s.d, s.e, s.labels.x, s.labels.length, s.entries.x, s.entries.length

static uint32_t one[MOST], two[MOST];

static int check(void)
{
    scheme s = a_scheme();
    if (!whole()) return 0;
    say("check", clavirost_check(SCHEME(s)), "", "");
    return 1;
}

static int deal(void)
{
    scheme s = a_scheme();
    uint32_t secret = number();
    list randoms = numbers_list();
    size_t length = places(one);
    if (!whole()) return 0;
    say("deal", clavirost_deal(SCHEME(s), secret, randoms.x, randoms.length, one, length), "", "");
    show(one, length);
    return 1;
}

static int ask(void)
{
    scheme s = a_scheme();
    uint32_t set = number();
    size_t r = places(one), z = places(two);
    if (!whole()) return 0;
    say("ask", clavirost_ask(SCHEME(s), set, one, r, two, z), "OPEN", "CLOSED");
    show(one, r);
    show(two, z);
    return 1;
}

static int join(void)
{
    scheme s = a_scheme();
    uint32_t set = number(), code = MARK;
    list shares = numbers_list();
    if (!whole()) return 0;
    uint32_t said = clavirost_join(SCHEME(s), set, shares.x, shares.length, &code);
    say("join", said, "", "");
    if (said == CLAVIROST_DONE) printf(" %u", code);
    return 1;
}

static int product(void)
{
    scheme s = a_scheme();
    size_t r = places(one), w = places(two);
    if (!whole()) return 0;
    say("product", clavirost_product(SCHEME(s), one, r, two, w), "YES", "NO");
    show(one, r);
    show(two, w);
    return 1;
}

static int threshold(void)
{
    scheme s = a_scheme();
    uint32_t t = number(), set = MARK;
    if (!whole()) return 0;
    uint32_t said = clavirost_threshold(SCHEME(s), t, &set);
    say("threshold", said, "YES", "NO");
    if (said == CLAVIROST_NO) printf(" %u", set);
    return 1;
}

static int rule(void)
{
    uint32_t p = number(), n = number();
    size_t length = a_text(), l = places(one), m = places(two), d = MARK, e = MARK;
    if (!whole()) return 0;
    uint32_t said = clavirost_rule(p, n, bytes, length, one, l, two, m, &d, &e);
    say("rule", said, "", "");
    if (said == CLAVIROST_DONE) printf(" %u %zu %zu %u", n, d, e, p);
    show(one, l);
    show(two, m);
    return 1;
}

static int write(void)
{
    scheme s = a_scheme();
    size_t length = places(one);
    if (!whole()) return 0;
    memset(bytes, BYTE_MARK, length);
    uint32_t said = clavirost_write(SCHEME(s), bytes, length);
    say("write", said, "", "");
    for (size_t i = 0; i < length; i++) one[i] = said != CLAVIROST_DONE && bytes[i] == BYTE_MARK ? MARK : bytes[i];
    show(one, length);
    return 1;
}

static int read(void)
{
    size_t length = a_text(), l = places(one), m = places(two), d = MARK, e = MARK;
    uint32_t p = MARK, n = MARK;
    if (!whole()) return 0;
    uint32_t said = clavirost_read(bytes, length, one, l, two, m, &p, &n, &d, &e);
    say("read", said, "", "");
    if (said == CLAVIROST_DONE) printf(" %u %zu %zu %u", n, d, e, p);
    show(one, l);
    show(two, m);
    return 1;
}

/* A panel's places: the numbers given in the first of them, the mark in the others. */
static uint32_t panel_labels[CLAVIROST_LABELS], panel_entries[CLAVIROST_ENTRIES], cards, stored[CLAVIROST_STORED];

static void lay(uint32_t *to, size_t length, list from)
{
    if (from.length > length) { good = 0; return; }
    for (size_t i = 0; i < length; i++) to[i] = i < from.length ? from.x[i] : MARK;
}

static scheme a_panel(void)
{
    scheme s = a_scheme();
    cards = number();
    lay(panel_labels, CLAVIROST_LABELS, s.labels);
    lay(panel_entries, CLAVIROST_ENTRIES, s.entries);
    lay(stored, CLAVIROST_STORED, numbers_list());
    return s;
}

#define PANEL(s) s.p, s.n, s.d, s.e, panel_labels, CLAVIROST_LABELS, panel_entries, CLAVIROST_ENTRIES

static void say_panel(const char *call, uint32_t said, size_t d)
{
    say(call, said, "", "");
    if (said != CLAVIROST_DONE) return;
    printf(" %u", cards);
    show(stored, d < CLAVIROST_STORED ? d : CLAVIROST_STORED);
}

static int panel_new(void)
{
    list none = {0, 0};
    scheme s = a_scheme();
    if (!whole() || s.labels.length > CLAVIROST_LABELS || s.entries.length > CLAVIROST_ENTRIES) return 0;
    lay(panel_labels, CLAVIROST_LABELS, none);
    lay(panel_entries, CLAVIROST_ENTRIES, none);
    lay(stored, CLAVIROST_STORED, none);
    cards = MARK;
    say_panel("panel_new", clavirost_panel_new(SCHEME(s), panel_labels, CLAVIROST_LABELS, panel_entries, CLAVIROST_ENTRIES, &cards, stored, CLAVIROST_STORED), s.d);
    return 1;
}

static int panel_put(void)
{
    scheme s = a_panel();
    uint32_t who = number();
    list shares = numbers_list();
    if (!whole()) return 0;
    say_panel("panel_put", clavirost_panel_put(PANEL(s), &cards, stored, CLAVIROST_STORED, who, shares.x, shares.length), s.d);
    return 1;
}

static int panel_take(void)
{
    scheme s = a_panel();
    uint32_t who = number();
    if (!whole()) return 0;
    say_panel("panel_take", clavirost_panel_take(PANEL(s), &cards, stored, CLAVIROST_STORED, who), s.d);
    return 1;
}

static int panel_code(void)
{
    uint32_t code = MARK;
    scheme s = a_panel();
    if (!whole()) return 0;
    uint32_t said = clavirost_panel_code(PANEL(s), cards, stored, CLAVIROST_STORED, &code);
    say("panel_code", said, "", "");
    if (said == CLAVIROST_DONE) printf(" %u", code);
    return 1;
}

static const struct { const char *name; int (*answer)(void); } calls[] = {
    {"check", check}, {"deal", deal}, {"ask", ask}, {"join", join}, {"product", product}, {"threshold", threshold}, {"rule", rule},
    {"write", write}, {"read", read}, {"panel_new", panel_new}, {"panel_put", panel_put}, {"panel_take", panel_take}, {"panel_code", panel_code},
};

/* The numbers of a line after its name: decimal, below 2^32, one space before each. */
static int read_numbers(const char *c)
{
    count = at = 0;
    good = 1;
    while (*c == ' ') {
        uint64_t x = 0;
        const char *start = ++c;
        while (*c >= '0' && *c <= '9' && x < 4294967296u) x = 10 * x + (*c++ - '0');
        if (c == start || x > 4294967295u || count == NUMBERS) return 0;
        numbers[count++] = x;
    }
    return *c == 0;
}

int main(void)
{
    static char line[131073];
    while (fgets(line, sizeof line, stdin)) {
        size_t name = strcspn(line, " \n");
        int told = 0;
        line[strcspn(line, "\n")] = 0;
        if (read_numbers(line + name))
            for (size_t i = 0; i < sizeof calls / sizeof calls[0]; i++)
                if (strlen(calls[i].name) == name && !strncmp(line, calls[i].name, name)) told = calls[i].answer();
        if (!told) printf("? no request");
        printf("\n");
    }
    return 0;
}
