/* The deepest stack of each exported call, on the largest inputs that it takes: the stack below the call is painted, the call is made, and what
   has lost its paint is counted. Prints a line a call: its name and the bytes below its caller. */
#include <stdint.h>
#include <stdio.h>
#include <string.h>
#include "clavirost.h"

#define DEPTH (2 << 20)
#define PAINT 0xA5

#define P 65521
#define N 16
#define D 32
#define E 12

static uint32_t labels[D], entries[D * E], one[384], two[384], cards, number;
static uint8_t file[1536], out[262144];
static char text[257];
static size_t rows, columns;

static __attribute__((noinline)) void paint(void)
{
    volatile unsigned char below[DEPTH];
    for (size_t i = 0; i < DEPTH; i++) below[i] = PAINT;
}

static __attribute__((noinline)) size_t unpainted(void)
{
    volatile unsigned char below[DEPTH];
    size_t i = 0;
    while (i < DEPTH && below[i] == PAINT) i++;
    return DEPTH - i;
}

#define SCHEME P, N, D, E, labels, D, entries, D * E
#define PANEL P, N, D, E, labels, 32, entries, 384

static uint32_t check(void) { return clavirost_check(SCHEME); }
static uint32_t deal(void) { return clavirost_deal(SCHEME, 1, one, E - 1, two, D); }
static uint32_t ask_open(void) { return clavirost_ask(SCHEME, 65535, one, D, two, E); }
static uint32_t ask_closed(void) { return clavirost_ask(SCHEME, 21, one, D, two, E); }
static uint32_t join(void) { return clavirost_join(SCHEME, 65535, two, D, &number); }
static uint32_t product(void) { return clavirost_product(SCHEME, one, D, two, E * (E + 1) / 2); }
static uint32_t threshold(void) { return clavirost_threshold(SCHEME, 5, &number); }
static uint32_t rule(void) { return clavirost_rule(P, N, (uint8_t *)text, strlen(text), one, 32, two, 384, &rows, &columns); }
static uint32_t write(void) { return clavirost_write(SCHEME, file, 1536); }
static uint32_t read(void) { return clavirost_read(file, 1536, one, 32, two, 384, &number, &number, &rows, &columns); }
static uint32_t panel_new(void) { return clavirost_panel_new(SCHEME, one, 32, two, 384, &cards, one + 32, 32); }
static uint32_t panel_put(void) { cards = 0; return clavirost_panel_put(PANEL, &cards, one, 32, 1, two, 2); }
static uint32_t panel_take(void) { cards = 1; return clavirost_panel_take(PANEL, &cards, one, 32, 1); }
static uint32_t panel_code(void) { return clavirost_panel_code(PANEL, 65535, one, 32, &number); }
static uint32_t sheet_line(void) { return clavirost_sheet_line(SCHEME, 65535, out, 256, &rows); }
static uint32_t sheet_part(void) { return clavirost_sheet_part(file, 1536, 1, out, sizeof out, &rows); }

/* The first call is not measured: the loader may look names up in it. */
static void measure(const char *name, uint32_t (*call)(void))
{
    call();
    paint();
    uint32_t said = call();
    printf("%-12s %7zu bytes (answered %u)\n", name, unpainted(), said);
}

/* Rules that go deep: 8 parentheses one in another, and 128 terms. */
static void deep_rule(void) { strcpy(text, "((((((((1|2&3)))))))|4&(5|(6|(7|(8|(9|(10|(11|12&13))))))))"); }

static void long_rule(void)
{
    for (int i = 0; i < 128; i++) memcpy(text + 2 * i, "1|", 2);
    text[255] = 0;
}

int main(void)
{
    uint64_t x = 1;
    for (int i = 0; i < D; i++) labels[i] = i / 2 + 1;
    for (int i = 0; i < D * E; i++) { x = x * 6364136223846793005u + 1442695040888963407u; entries[i] = (x >> 33) % P; }
    memset(one, 0, sizeof one);
    measure("check", check);
    measure("deal", deal);
    measure("ask, closed", ask_closed);
    measure("ask, open", ask_open);
    memset(one, 0, sizeof one);
    deal();
    measure("join", join);
    measure("product", product);
    measure("threshold", threshold);
    deep_rule();
    measure("rule, deep", rule);
    long_rule();
    measure("rule, long", rule);
    measure("write", write);
    measure("read", read);
    measure("panel_new", panel_new);
    memset(one, 0, sizeof one);
    memset(two, 0, sizeof two);
    measure("panel_put", panel_put);
    measure("panel_take", panel_take);
    measure("panel_code", panel_code);
    measure("sheet_line", sheet_line);
    measure("sheet_part", sheet_part);
    return 0;
}
