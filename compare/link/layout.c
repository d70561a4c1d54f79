/* Holds the libraries to the layout that include/oblakosh.h states. Each answer is left in memory as x86-64 returns a struct, at a
   pointer that comes before the parameters; then each field must have its own value, and nothing beyond the struct be written.
   With CONTROLLER defined every operation, else those of the judge's library. */
#include <stdio.h>
#include <string.h>

#include "oblakosh.h"

/* The functions as the machine sees them. */
#define RAW(function) __asm__("oblakosh_" #function)
void *raw_read_sheet(void *answer, const uint8_t *s, size_t s_length) RAW(read_sheet);
void *raw_read_plan(void *answer, const uint8_t *s, size_t s_length, const uint8_t *p, size_t p_length) RAW(read_plan);
void *raw_judge(void *answer, const uint8_t *s, size_t s_length, const uint8_t *p, size_t p_length, uint32_t *words,
                size_t words_length) RAW(judge);
void *raw_write_again(void *answer, const uint8_t *s, size_t s_length, const uint8_t *p, size_t p_length, uint8_t *room,
                      size_t room_length) RAW(write_again);
typedef void *raw_planner(void *answer, const uint8_t *s, size_t s_length, uint8_t *room, size_t room_length);
raw_planner raw_plan RAW(plan), raw_plan_first RAW(plan_first), raw_plan_better RAW(plan_better);
void *raw_find_list(void *answer, const uint8_t *s, size_t s_length, const uint8_t *p, size_t p_length, size_t zone) RAW(find_list);
void *raw_ask(void *answer, const uint8_t *s, size_t s_length, const uint8_t *p, size_t p_length, oblakosh_record record,
              size_t cart) RAW(ask);
void *raw_move_cart(void *answer, const uint8_t *s, size_t s_length, const uint8_t *p, size_t p_length, oblakosh_record *record,
                    size_t cart) RAW(move_cart);
void *raw_net(void *answer, const uint8_t *s, size_t s_length, const uint8_t *p, size_t p_length, uint8_t *room, size_t room_length) RAW(net);
void *raw_why(void *answer, const uint8_t *s, size_t s_length, const uint8_t *p, size_t p_length, oblakosh_record record,
              size_t cart) RAW(why);

static int failed = 0;

static void expect(int holds, const char *what)
{
    if (!holds) {
        printf("layout: not as include/oblakosh.h says: %s\n", what);
        failed = 1;
    }
}

#define IS(field, wanted) expect((field) == (wanted), #field)
#define SAME(field, wanted) expect(memcmp(&(field), &(wanted), sizeof(field)) == 0, #field)

/* ---- memory for answers */

enum { UNTOUCHED = 0xA5 };
static uint64_t memory[256];

static void *blank(void)
{
    return memset(memory, UNTOUCHED, sizeof memory);
}

/* The answer at the start of the memory; all beyond it must be as it was. */
static void take(void *answer, size_t size, const char *type)
{
    const uint8_t *bytes = (const uint8_t *)memory;
    size_t end = sizeof memory;
    while (end > size && bytes[end - 1] == UNTOUCHED) {
        end--;
    }
    expect(end == size, type);
    memcpy(answer, memory, size);
}

#define TAKE(type, answer) \
    type answer; \
    take(&answer, sizeof answer, #type)

/* ---- crossings: their bytes, and what reading them must answer */

typedef struct {
    uint8_t bytes[OBLAKOSH_SHEET];
    size_t length;
} text;

typedef struct {
    oblakosh_sheet sheet;
    oblakosh_orders orders;
    size_t start[OBLAKOSH_ZONES]; /* of each zone's list in the plan */
    uint32_t moves;
    text s, p;
} crossing;

static void put(text *to, uint32_t value, int width)
{
    while (width-- > 0) {
        to->bytes[to->length++] = (uint8_t)(value >> 8 * width);
    }
}

static void put_length(text *to)
{
    to->bytes[1] = (uint8_t)(to->length >> 8);
    to->bytes[2] = (uint8_t)to->length;
}

static void write_sheet(const oblakosh_sheet *sheet, text *s)
{
    put(s, 1, 1);
    put(s, 0, 2);
    put(s, OBLAKOSH_ZONES, 1);
    for (int z = 0; z < OBLAKOSH_ZONES; z++) {
        put(s, sheet->follow[z], 2);
        put(s, sheet->cross[z], 2);
    }
    put(s, OBLAKOSH_CARTS, 1);
    for (int i = 0; i < OBLAKOSH_CARTS; i++) {
        put(s, sheet->lane[i], 1);
        put(s, sheet->arrival[i], 4);
        put(s, sheet->steps[i], 1);
        for (int j = 0; j < sheet->steps[i]; j++) {
            put(s, sheet->zone[i][j], 1);
            put(s, sheet->passing[i][j], 2);
            put(s, sheet->travel[i][j], 2);
        }
    }
    put_length(s);
}

/* The cart's step in the zone, or -1. */
static int step_in(const oblakosh_sheet *sheet, int cart, int zone)
{
    int step = sheet->steps[cart];
    while (step-- > 0 && sheet->zone[cart][step] != zone) {
    }
    return step;
}

/* Lists the zone's visitors from this cart down, and then from the highest cart. */
static void list_zone(crossing *c, int zone, int first)
{
    uint8_t *count = &c->orders.count[zone];
    uint16_t ahead = 0;
    for (int k = 0; k < OBLAKOSH_CARTS; k++) {
        int cart = (first - k + OBLAKOSH_CARTS) % OBLAKOSH_CARTS;
        int step = step_in(&c->sheet, cart, zone);
        if (step >= 0) {
            c->orders.list[zone][(*count)++] = (uint8_t)cart;
            c->orders.ahead[cart][step] = ahead;
            ahead = (uint16_t)(ahead | 1 << cart);
        }
    }
}

static void write_plan(crossing *c)
{
    put(&c->p, 1, 1);
    put(&c->p, 0, 2);
    put(&c->p, OBLAKOSH_ZONES, 1);
    for (int z = 0; z < OBLAKOSH_ZONES; z++) {
        put(&c->p, c->orders.count[z], 1);
        c->start[z] = c->p.length;
        for (int k = 0; k < c->orders.count[z]; k++) {
            put(&c->p, c->orders.list[z][k], 1);
        }
    }
    put_length(&c->p);
}

/* Apart: carts of up to eight steps, those with higher numbers first in every zone. Locked: two steps each, and each cart stands
   where the cart before it wants to go on. Held: the same, but the last cart has one step. */
typedef enum { APART, LOCKED, HELD } kind;

static uint8_t steps_of(kind of, int cart)
{
    if (of == APART) {
        return (uint8_t)(1 + (5 * cart + 4) % 8);
    }
    return of == HELD && cart == OBLAKOSH_CARTS - 1 ? 1 : 2;
}

/* No two neighbours are alike, in any table. */
static void make(crossing *c, kind of)
{
    oblakosh_sheet *sheet = &c->sheet;
    memset(c, 0, sizeof *c);
    sheet->zones = OBLAKOSH_ZONES;
    sheet->carts = OBLAKOSH_CARTS;
    for (int z = 0; z < OBLAKOSH_ZONES; z++) {
        sheet->follow[z] = (uint16_t)(1001 + z);
        sheet->cross[z] = (uint16_t)(2001 + z);
    }
    for (int i = 0; i < OBLAKOSH_CARTS; i++) {
        sheet->lane[i] = (uint8_t)((7 * i + 3) % 16);
        sheet->arrival[i] = (uint32_t)(1000003 + 70001 * i);
        sheet->steps[i] = steps_of(of, i);
        c->moves += sheet->steps[i] + 1u;
        for (int j = 0; j < sheet->steps[i]; j++) {
            sheet->zone[i][j] = (uint8_t)(of == APART ? (5 * i + 7 * j + 1) % 24 : 8 + (i + j) % 16);
            sheet->passing[i][j] = (uint16_t)(10001 + 8 * i + j);
            sheet->travel[i][j] = (uint16_t)(j + 1 < sheet->steps[i] ? 20001 + 8 * i + j : 0);
        }
    }
    write_sheet(sheet, &c->s);
    for (int z = 0; z < OBLAKOSH_ZONES; z++) {
        list_zone(c, z, of == APART ? OBLAKOSH_CARTS - 1 : (z + 8) % 16);
    }
    write_plan(c);
}

/* ---- the answers */

#define SHEET(c) (c).s.bytes, (c).s.length
#define PLAN(c) (c).p.bytes, (c).p.length

static crossing apart, locked, held, refused;
static uint32_t words[OBLAKOSH_WORDS];

#define IS_OUTCOME(outcome, wanted_number, wanted_cart, wanted_step, wanted_place) \
    IS((outcome).number, wanted_number); \
    IS((outcome).cart, wanted_cart); \
    IS((outcome).step, wanted_step); \
    IS((outcome).place, wanted_place)
#define IS_DONE(outcome) IS_OUTCOME(outcome, 0u, 0, 0, 0u)
/* The carts begin at 101, and cart 0 has five steps: the passing time of its step 3 is the field at 101 + 6 + 5 * 3 + 1. */
enum { LONG_PASSING = 123 };
#define IS_REFUSED(outcome) IS_OUTCOME(outcome, (uint32_t)OBLAKOSH_TIME, 1, 4, (size_t)LONG_PASSING)

static void reading_a_sheet(void)
{
    raw_read_sheet(blank(), SHEET(apart));
    TAKE(oblakosh_sheet_read, read);
    IS_DONE(read.outcome);
    SAME(read.sheet.zones, apart.sheet.zones);
    SAME(read.sheet.follow, apart.sheet.follow);
    SAME(read.sheet.cross, apart.sheet.cross);
    SAME(read.sheet.carts, apart.sheet.carts);
    SAME(read.sheet.lane, apart.sheet.lane);
    SAME(read.sheet.arrival, apart.sheet.arrival);
    SAME(read.sheet.steps, apart.sheet.steps);
    SAME(read.sheet.zone, apart.sheet.zone);
    SAME(read.sheet.passing, apart.sheet.passing);
    SAME(read.sheet.travel, apart.sheet.travel);
    raw_read_sheet(blank(), SHEET(refused));
    TAKE(oblakosh_sheet_read, not_read);
    IS_REFUSED(not_read.outcome);
}

static void reading_a_plan(void)
{
    raw_read_plan(blank(), SHEET(apart), PLAN(apart));
    TAKE(oblakosh_plan_read, read);
    IS_DONE(read.outcome);
    SAME(read.sheet, apart.sheet);
    SAME(read.orders.count, apart.orders.count);
    SAME(read.orders.list, apart.orders.list);
    SAME(read.orders.ahead, apart.orders.ahead);
    raw_read_plan(blank(), SHEET(refused), PLAN(apart));
    TAKE(oblakosh_plan_read, not_read);
    IS_REFUSED(not_read.outcome);
}

/* The largest leaving time, by the words that judging wrote. */
static uint32_t finish_by_words(void)
{
    uint32_t finish = 0;
    for (int i = 0; i < OBLAKOSH_CARTS; i++) {
        int last = apart.sheet.steps[i] - 1;
        uint32_t leave = words[OBLAKOSH_STEPS * i + last] + apart.sheet.passing[i][last];
        finish = leave > finish ? leave : finish;
    }
    return finish;
}

static void judging(void)
{
    raw_judge(blank(), SHEET(apart), PLAN(apart), words, OBLAKOSH_WORDS);
    TAKE(oblakosh_judged, judged);
    IS_DONE(judged.outcome);
    IS(judged.finish, finish_by_words());
    IS(judged.moves, apart.moves);
    raw_judge(blank(), SHEET(locked), PLAN(locked), words, OBLAKOSH_WORDS);
    TAKE(oblakosh_judged, lock);
    IS(lock.outcome.number, (uint32_t)OBLAKOSH_LOCKED);
    IS(lock.ring.length, (size_t)OBLAKOSH_CARTS);
    for (int k = 0; k < OBLAKOSH_CARTS; k++) {
        IS(lock.ring.cart[k], k);
        IS(lock.ring.zone[k], 8 + (k + 1) % 16);
    }
    raw_judge(blank(), SHEET(refused), PLAN(apart), words, OBLAKOSH_WORDS);
    TAKE(oblakosh_judged, not_judged);
    IS_REFUSED(not_judged.outcome);
}

#ifdef CONTROLLER
static uint8_t room[OBLAKOSH_PLAN];

static void writing_again(void)
{
    raw_write_again(blank(), SHEET(apart), PLAN(apart), room, sizeof room);
    TAKE(oblakosh_plan_written, wrote);
    IS_DONE(wrote.outcome);
    IS(wrote.length, apart.p.length);
    raw_write_again(blank(), SHEET(refused), PLAN(apart), room, sizeof room);
    TAKE(oblakosh_plan_written, not_written);
    IS_REFUSED(not_written.outcome);
}

static void planning(raw_planner *raw)
{
    raw(blank(), SHEET(apart), room, sizeof room);
    TAKE(oblakosh_planned, planned);
    IS_DONE(planned.outcome);
    IS(planned.length, apart.p.length);
    IS(oblakosh_judge(SHEET(apart), room, planned.length, words, OBLAKOSH_WORDS).outcome.number, 0u);
    IS(planned.finish, finish_by_words());
    raw(blank(), SHEET(refused), room, sizeof room);
    TAKE(oblakosh_planned, not_planned);
    IS_REFUSED(not_planned.outcome);
}

static void finding_a_list(void)
{
    for (size_t z = 0; z < OBLAKOSH_ZONES; z++) {
        raw_find_list(blank(), SHEET(apart), PLAN(apart), z);
        TAKE(oblakosh_list_found, found);
        IS_DONE(found.outcome);
        IS(found.start, apart.start[z]);
        IS(found.length, apart.orders.count[z]);
    }
    raw_find_list(blank(), SHEET(refused), PLAN(apart), 0);
    TAKE(oblakosh_list_found, not_found);
    IS_REFUSED(not_found.outcome);
}

/* Cart 15 is out and cart 14 in the first zone of its route: it may go on. Cart 0 waits behind all others of its first zone. */
static void moving(void)
{
    oblakosh_record at_start = {0};
    struct {
        oblakosh_record record;
        uint8_t beyond[8];
    } lent = {{.position = {[14] = 1, [15] = 9}, .made = 10}, {0}}, moved = {{.position = {[14] = 2, [15] = 9}, .made = 11}, {0}};
    raw_ask(blank(), SHEET(apart), PLAN(apart), lent.record, 14);
    TAKE(oblakosh_asked, asked);
    IS_DONE(asked.outcome);
    IS(asked.position, 2);
    IS(asked.made, 11u);
    IS(asked.ahead, 0u);
    raw_ask(blank(), SHEET(apart), PLAN(apart), at_start, 0);
    TAKE(oblakosh_asked, waits);
    IS(waits.outcome.number, (uint32_t)OBLAKOSH_CART_HELD);
    IS(waits.ahead, apart.orders.count[apart.sheet.zone[0][0]] - 1u);
    raw_move_cart(blank(), SHEET(apart), PLAN(apart), &lent.record, 14);
    TAKE(oblakosh_asked, stored);
    IS_DONE(stored.outcome);
    IS(stored.position, 2);
    IS(stored.made, 11u);
    IS(stored.ahead, 0u);
    SAME(lent, moved);
    raw_move_cart(blank(), SHEET(refused), PLAN(apart), &lent.record, 14);
    TAKE(oblakosh_asked, not_moved);
    IS_REFUSED(not_moved.outcome);
}

/* Every cart stands in its first zone, the last in its only one: or the last is on its lane still. */
static void telling_why(void)
{
    for (int out = 0; out < 2; out++) {
        oblakosh_record record = {.made = OBLAKOSH_CARTS};
        memset(record.position, 1, sizeof record.position);
        if (!out) {
            record.position[OBLAKOSH_CARTS - 1] = 0;
            record.made--;
        }
        raw_why(blank(), SHEET(held), PLAN(held), record, 0);
        TAKE(oblakosh_chain, chain);
        IS_DONE(chain.outcome);
        IS(chain.length, (size_t)OBLAKOSH_CARTS);
        for (int k = 0; k < OBLAKOSH_CARTS; k++) {
            IS(chain.cart[k], k);
            IS(chain.zone[k], k + 1 < OBLAKOSH_CARTS ? 9 + k : out ? 0 : 23);
        }
        IS(chain.out, out);
    }
    oblakosh_record at_start = {0};
    raw_why(blank(), SHEET(refused), PLAN(apart), at_start, 0);
    TAKE(oblakosh_chain, not_told);
    IS_REFUSED(not_told.outcome);
}

/* Lines of the net's text: by cart and position, by pair in a zone's list, and by cart with one in front on its lane, of which there
   is none. */
static size_t lines_of(const crossing *c)
{
    size_t lines = 0;
    for (int i = 0; i < OBLAKOSH_CARTS; i++) {
        lines += 4u * c->sheet.steps[i] + 5;
    }
    for (int z = 0; z < OBLAKOSH_ZONES; z++) {
        lines += 3u * c->orders.count[z] * (c->orders.count[z] - 1u) / 2;
    }
    return lines;
}

static void writing_the_net(void)
{
    static const char first[] = "place cart 00 00 -- --\ntransition 00 00 -- --\n";
    static uint8_t text[OBLAKOSH_NET];
    raw_net(blank(), SHEET(apart), PLAN(apart), text, sizeof text);
    TAKE(oblakosh_net_run, ran);
    IS_DONE(ran.outcome);
    IS(ran.length, 23 * lines_of(&apart));
    IS(ran.locked, 0);
    for (int i = 0; i < OBLAKOSH_CARTS; i++) {
        IS(ran.position[i], apart.sheet.steps[i] + 1);
    }
    IS(memcmp(text, first, sizeof first - 1), 0);
    IS(text[ran.length - 1], '\n');
    IS(text[ran.length], 0);
    raw_net(blank(), SHEET(locked), PLAN(locked), text, sizeof text);
    TAKE(oblakosh_net_run, lock);
    IS_DONE(lock.outcome);
    IS(lock.length, 23 * lines_of(&locked));
    IS(lock.locked, 1);
    for (int i = 0; i < OBLAKOSH_CARTS; i++) {
        IS(lock.position[i], 1);
    }
    raw_net(blank(), SHEET(refused), PLAN(apart), text, sizeof text);
    TAKE(oblakosh_net_run, not_written);
    IS_REFUSED(not_written.outcome);
}
#endif

int main(void)
{
    make(&apart, APART);
    make(&locked, LOCKED);
    make(&held, HELD);
    refused = apart;
    refused.s.bytes[LONG_PASSING] = 0xFF;
    reading_a_sheet();
    reading_a_plan();
    judging();
#ifdef CONTROLLER
    writing_again();
    planning(raw_plan);
    planning(raw_plan_first);
    planning(raw_plan_better);
    finding_a_list();
    moving();
    telling_why();
    writing_the_net();
#endif
    return failed;
}
