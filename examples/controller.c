/* What a controller does with document 01's sheet S and plan A: reads them, keeps the plan, shows each zone's list, plans, writes the
   plan's net, and lets the carts roll.
   cc -Iinclude examples/controller.c target/staticlib/liboblakosh.a target/staticlib/libmoving.a */
#include <stdio.h>
#include <string.h>

#include "oblakosh.h"

static const uint8_t sheet[] = {
    0x01, 0x00, 0x2D, 0x02, 0x00, 0xC8, 0x01, 0x2C, 0x00, 0xC8, 0x01, 0x2C, 0x02,
    0x00, 0x00, 0x00, 0x00, 0x00, 0x02, 0x00, 0x03, 0xE8, 0x00, 0x64, 0x01, 0x03, 0xE8, 0x00, 0x00,
    0x01, 0x00, 0x00, 0x01, 0xF4, 0x02, 0x01, 0x03, 0xE8, 0x00, 0x64, 0x00, 0x03, 0xE8, 0x00, 0x00,
};
static const uint8_t plan[] = {0x01, 0x00, 0x0A, 0x02, 0x02, 0x00, 0x01, 0x02, 0x00, 0x01};

/* Prints a refusal; whether the operation is done. */
static int done(oblakosh_outcome outcome)
{
    if (outcome.number == OBLAKOSH_DONE) {
        return 1;
    }
    printf("refused %u at %zu", outcome.number, outcome.place);
    if (outcome.cart != 0) {
        printf(" cart %u step %u", outcome.cart, outcome.step);
    }
    printf("\n");
    return 0;
}

/* How many carts are ahead of each cart in each zone of its route. */
static void show_ahead(void)
{
    oblakosh_plan_read read = oblakosh_read_plan(sheet, sizeof sheet, plan, sizeof plan);
    if (!done(read.outcome)) {
        return;
    }
    for (size_t cart = 0; cart < read.sheet.carts; cart++) {
        for (size_t step = 0; step < read.sheet.steps[cart]; step++) {
            int ahead = 0;
            for (int other = 0; other < OBLAKOSH_CARTS; other++) {
                ahead += read.orders.ahead[cart][step] >> other & 1;
            }
            printf("cart %zu zone %u ahead %d\n", cart, read.sheet.zone[cart][step], ahead);
        }
    }
}

static void show_list(size_t zone)
{
    oblakosh_list_found found = oblakosh_find_list(sheet, sizeof sheet, plan, sizeof plan, zone);
    if (!done(found.outcome)) {
        return;
    }
    printf("zone %zu list", zone);
    for (size_t k = 0; k < found.length; k++) {
        printf(" %u", plan[found.start + k]);
    }
    printf("\n");
}

static const char *same(const uint8_t *bytes, const uint8_t *others, size_t length)
{
    return memcmp(bytes, others, length) == 0 ? "the same" : "changed";
}

/* Writes the plan into room of so many bytes, and says what became of the memory there. */
static void keep_plan(size_t room_length)
{
    uint8_t memory[OBLAKOSH_PLAN], before[OBLAKOSH_PLAN];
    memset(memory, 0xFF, sizeof memory);
    memcpy(before, memory, sizeof memory);
    oblakosh_plan_written wrote = oblakosh_write_again(sheet, sizeof sheet, plan, sizeof plan, memory, room_length);
    if (done(wrote.outcome)) {
        printf("plan of %zu bytes: %s\n", wrote.length, same(memory, plan, wrote.length));
    }
    printf("other memory: %s\n", same(memory + wrote.length, before + wrote.length, sizeof memory - wrote.length));
}

/* Plans the sheet into room of so many bytes, and says what became of the memory there. */
static void make_plan(size_t room_length)
{
    uint8_t memory[OBLAKOSH_PLAN], before[OBLAKOSH_PLAN];
    memset(memory, 0xFF, sizeof memory);
    memcpy(before, memory, sizeof memory);
    oblakosh_planned planned = oblakosh_plan(sheet, sizeof sheet, memory, room_length);
    if (done(planned.outcome)) {
        printf("planned %zu bytes, finish %u: plan A's bytes %s\n", planned.length, planned.finish,
               same(memory, plan, planned.length));
    }
    printf("other memory: %s\n", same(memory + planned.length, before + planned.length, sizeof memory - planned.length));
}

/* The plan by arrival, and the better of both plans. */
static void make_other_plans(void)
{
    uint8_t room[OBLAKOSH_PLAN];
    oblakosh_planned first = oblakosh_plan_first(sheet, sizeof sheet, room, sizeof room);
    if (done(first.outcome)) {
        printf("first come %zu bytes, finish %u: plan A's bytes %s\n", first.length, first.finish, same(room, plan, first.length));
    }
    oblakosh_planned better = oblakosh_plan_better(sheet, sizeof sheet, room, sizeof room);
    if (done(better.outcome)) {
        printf("the better %zu bytes, finish %u: plan A's bytes %s\n", better.length, better.finish, same(room, plan, better.length));
    }
}

/* The plan's Petri net: how long its text is, how it begins, and where the carts are when no transition can fire. */
static void show_net(void)
{
    static uint8_t text[OBLAKOSH_NET];
    oblakosh_net_run net = oblakosh_net(sheet, sizeof sheet, plan, sizeof plan, text, sizeof text);
    if (done(net.outcome)) {
        printf("net of %zu bytes, %s: carts at %u and %u\n%.23s", net.length, net.locked ? "locked" : "not locked", net.position[0],
               net.position[1], (const char *)text);
    }
}

/* Says which cart is to move before a held one can: the last of its chain. */
static void show_why(oblakosh_record record, size_t cart)
{
    oblakosh_chain chain = oblakosh_why(sheet, sizeof sheet, plan, sizeof plan, record, cart);
    if (done(chain.outcome)) {
        printf("cart %zu waits until cart %u moves\n", cart, chain.cart[chain.length - 1]);
    }
}

/* Asks the routine before the cart rolls, and says what it answers. */
static void request(oblakosh_record *record, size_t cart)
{
    oblakosh_asked asked = oblakosh_move_cart(sheet, sizeof sheet, plan, sizeof plan, record, cart);
    if (done(asked.outcome)) {
        printf("cart %zu position %u made %u\n", cart, asked.position, asked.made);
    } else if (asked.outcome.number == OBLAKOSH_CART_HELD) {
        printf("cart %zu held, ahead %u\n", cart, asked.ahead);
        show_why(*record, cart);
    }
}

static int may_move(oblakosh_record record, size_t cart)
{
    return oblakosh_ask(sheet, sizeof sheet, plan, sizeof plan, record, cart).outcome.number == OBLAKOSH_DONE;
}

/* Drivers may start in any order: here the cart with the highest number that may move goes next, until none may. */
static void drive(void)
{
    oblakosh_record record = {0};
    request(&record, 1);
    size_t cart = OBLAKOSH_CARTS;
    while (cart-- > 0) {
        if (may_move(record, cart)) {
            request(&record, cart);
            cart = OBLAKOSH_CARTS;
        }
    }
    request(&record, 0);
    request(&record, 2);
}

int main(void)
{
    show_ahead();
    show_list(0);
    show_list(1);
    show_list(2);
    keep_plan(OBLAKOSH_PLAN);
    keep_plan(sizeof plan - 1);
    make_plan(OBLAKOSH_PLAN);
    make_plan(sizeof plan - 1);
    make_other_plans();
    show_net();
    drive();
    return 0;
}
