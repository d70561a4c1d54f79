/* Oblakosh: who goes through the crossing first. The public operations, for C and for whatever calls C, on x86-64 Linux
   (x86-64-v2).

   Libraries, made by `./build linked_judge_c oblakosh_c moving_c`, each with the functions of one crate:
     liblinked_judge.a  oblakosh_read_sheet, oblakosh_read_plan, oblakosh_judge
     liboblakosh.a      these and every other function below, but oblakosh_move_cart
     libmoving.a        oblakosh_move_cart
   A simulator links liblinked_judge.a alone, a controller liboblakosh.a and libmoving.a, in either order: no name stands in
   both. liblinked_judge.a and liboblakosh.a are not linked into one program: they export the same three names, and
   liboblakosh.a has all that the other has. Of the C library they need memcpy and memset.

   What is proved. Every function takes every byte string and number, ends, and answers what documents 01 and 02 say: done,
   or the first check that fails. On refusal every other part of the answer is 0, but for the ring that comes with 22 and the
   number of carts ahead that comes with 26, and lent memory is unchanged.

   What is assumed. Nothing here tests a pointer; the caller sees to it that, until the function returns,
     - a pointer and the length after it are memory of that many bytes (for words, of that many 32-bit words, at a
       multiple of 4) that the caller may read, and write where the pointer is not const; a pointer to a record is one
       record, at a multiple of 4. None is NULL, also where the length is 0;
     - memory lent to be written overlaps nothing else that is lent in that call, and no other thread touches it.

   Who owns what. All memory is the caller's. It is lent for the call: the library keeps no pointer, allocates nothing and
   has no state, so calls need no order and may be made from several threads. Answers are returned by value.

   Stack, measured with rattle-kit-13f: reading a plan takes 6 KB, judging 6 KB, a request 4 KB, planning 12 KB, by the better of
   both rules 15 KB.

   Carts, zones, steps and places count from 0; times are milliseconds; unused entries are 0. */
#ifndef OBLAKOSH_H
#define OBLAKOSH_H

#include <stddef.h>
#include <stdint.h>

#ifdef __cplusplus
extern "C" {
#endif

#define OBLAKOSH_ZONES 24
#define OBLAKOSH_CARTS 16
#define OBLAKOSH_STEPS 8      /* of one cart */
#define OBLAKOSH_SHEET 837    /* bytes of the longest sheet */
#define OBLAKOSH_PLAN 156     /* bytes of the longest plan */
#define OBLAKOSH_WORDS 128    /* words that judging writes */

/* ---- what every operation says first */

/* Document 01's numbers. "Field" is the field's first byte, in the sheet for 1 to 14 and in the plan for 15 to 21. */
enum oblakosh_number {
    OBLAKOSH_DONE = 0,
    OBLAKOSH_SHEET_CUT = 1,           /* sheet ends inside a field; place: field */
    OBLAKOSH_SHEET_VERSION = 2,       /* sheet version not 1; place: 0 */
    OBLAKOSH_SHEET_LENGTH = 3,        /* length field differs from bytes lent; place: 1 */
    OBLAKOSH_ZONE_COUNT = 4,          /* zone count 0 or above 24; place: field */
    OBLAKOSH_GAP = 5,                 /* gap above 60,000; place: field */
    OBLAKOSH_CART_COUNT = 6,          /* more than 16 carts; place: field */
    OBLAKOSH_LANE = 7,                /* lane above 15; place: field */
    OBLAKOSH_ARRIVAL = 8,             /* arrival above 3,600,000; place: field */
    OBLAKOSH_STEP_COUNT = 9,          /* step count 0 or above 8; place: field */
    OBLAKOSH_ZONE = 10,               /* zone number n or more; place: field */
    OBLAKOSH_ZONE_AGAIN = 11,         /* zone already in this route; place: field */
    OBLAKOSH_TIME = 12,               /* passing or travel time above 60,000, or travel not 0 on the last step; place: field */
    OBLAKOSH_SHEET_BYTES_AFTER = 13,  /* bytes after the last cart; place: first of them */
    OBLAKOSH_ARRIVES_BEFORE = 14,     /* a cart arrives before a lower-numbered one of its lane; place: its arrival, lowest such cart */
    OBLAKOSH_PLAN_CUT = 15,           /* plan ends inside a field; place: field */
    OBLAKOSH_PLAN_VERSION = 16,       /* plan version not 1; place: 0 */
    OBLAKOSH_PLAN_LENGTH = 17,        /* plan length differs from bytes lent; place: 1 */
    OBLAKOSH_PLAN_ZONE_COUNT = 18,    /* plan zone count not n; place: 3 */
    OBLAKOSH_LISTED = 19,             /* a zone's count isn't the number of carts that visit it, or a listed cart doesn't visit it or is listed twice there; place: field */
    OBLAKOSH_PLAN_BYTES_AFTER = 20,   /* bytes after the last list; place: first of them */
    OBLAKOSH_LISTED_BEHIND = 21,      /* a listed cart has a higher-numbered one of its lane ahead; place: first such byte */
    OBLAKOSH_LOCKED = 22,             /* plan is locked, the lanes being left in order; place: 0 */
    OBLAKOSH_RECORD = 23,             /* no run of this plan, in which the lanes are left in order, reaches the lent record; place: 0 */
    OBLAKOSH_NO_CART = 24,            /* cart number m or more; place: 0 */
    OBLAKOSH_CART_OUT = 25,           /* cart is already out; place: 0 */
    OBLAKOSH_CART_HELD = 26,          /* cart is held, by carts ahead in the zone it wants or by the one in front on its lane; place: 0 */
    OBLAKOSH_NO_ZONE = 27,            /* zone number n or more, in the list operation; place: 0 */
    OBLAKOSH_ROOM = 28                /* lent room too short; place: 0 */
};

/* A refusal from 1 to 14 that stands inside a cart's part of the sheet tells which cart, a cut there too. For 13, for 14's
   step and for everything else cart and step are 0. */
typedef struct {
    uint32_t number;  /* enum oblakosh_number: 0 for done */
    uint8_t cart;     /* the cart's number plus one; 0: in no cart's part */
    uint8_t step;     /* the step's number plus one; 0: in no step */
    size_t place;
} oblakosh_outcome;

/* ---- reading a sheet */

typedef struct {
    size_t zones;                                       /* n, 1 to 24 */
    uint16_t follow[OBLAKOSH_ZONES];                    /* gap in a zone behind a cart of the same lane */
    uint16_t cross[OBLAKOSH_ZONES];                     /* gap behind a cart of another lane */
    size_t carts;                                       /* m, 0 to 16 */
    uint8_t lane[OBLAKOSH_CARTS];
    uint32_t arrival[OBLAKOSH_CARTS];
    uint8_t steps[OBLAKOSH_CARTS];                      /* how many zones the cart's route has */
    uint8_t zone[OBLAKOSH_CARTS][OBLAKOSH_STEPS];
    uint16_t passing[OBLAKOSH_CARTS][OBLAKOSH_STEPS];
    uint16_t travel[OBLAKOSH_CARTS][OBLAKOSH_STEPS];    /* to the next step */
} oblakosh_sheet;

typedef struct {
    oblakosh_outcome outcome;
    oblakosh_sheet sheet;
} oblakosh_sheet_read;

/* The sheet that the bytes say. Refuses with 1 to 14. */
oblakosh_sheet_read oblakosh_read_sheet(const uint8_t *sheet, size_t sheet_length);

/* ---- reading a plan */

typedef struct {
    uint8_t count[OBLAKOSH_ZONES];                      /* how many carts the zone's list has */
    uint8_t list[OBLAKOSH_ZONES][OBLAKOSH_CARTS];       /* the zone's carts, first through first */
    uint16_t ahead[OBLAKOSH_CARTS][OBLAKOSH_STEPS];     /* the carts ahead of the cart in that step's zone: bit d for cart d */
} oblakosh_orders;

typedef struct {
    oblakosh_outcome outcome;
    oblakosh_sheet sheet;
    oblakosh_orders orders;
} oblakosh_plan_read;

/* The sheet, and the plan's orders for it. Refuses with 1 to 21. */
oblakosh_plan_read oblakosh_read_plan(const uint8_t *sheet, size_t sheet_length, const uint8_t *plan, size_t plan_length);

/* ---- judging a plan */

typedef struct {
    size_t length;                /* how many carts are in the ring; 0: no ring */
    uint8_t cart[OBLAKOSH_CARTS]; /* begun at the lowest number; each waits for the next, the last for the first: on the lane
                                     for the cart in front while that has not moved, else for the first of the zone's list
                                     that has not left it */
    uint8_t zone[OBLAKOSH_CARTS]; /* the zone that each wants */
} oblakosh_ring;

typedef struct {
    oblakosh_outcome outcome;
    uint32_t finish;              /* the largest leaving time */
    uint32_t moves;               /* all steps plus all carts */
    oblakosh_ring ring;           /* with 22 only */
} oblakosh_judged;

/* Whether the plan is accepted, and the entering times, of which a cart's first is no earlier than that of the cart in front
   on its lane. Refuses with 1 to 22, where 22 comes with the ring, and with 28 if fewer than OBLAKOSH_WORDS words are lent.
   If done, word 8 * cart + step holds the entering time, unused words of the first 128 are 0, and words beyond are
   untouched. */
oblakosh_judged oblakosh_judge(const uint8_t *sheet, size_t sheet_length, const uint8_t *plan, size_t plan_length,
                               uint32_t *words, size_t words_length);

/* ---- writing a plan again */

typedef struct {
    oblakosh_outcome outcome;
    size_t length;                /* of the plan written */
} oblakosh_plan_written;

/* Reads the plan and writes it at the start of the room: the same bytes. Refuses with 1 to 21, and with 28 if the room is
   shorter than the plan. Bytes beyond the plan are untouched. */
oblakosh_plan_written oblakosh_write_again(const uint8_t *sheet, size_t sheet_length, const uint8_t *plan, size_t plan_length,
                                           uint8_t *room, size_t room_length);

/* ---- planning */

typedef struct {
    oblakosh_outcome outcome;
    size_t length;                /* of the plan written */
    uint32_t finish;              /* of the plan, as judging it gives */
} oblakosh_planned;

/* Writes the sheet's plan at the start of the room: the one document 01's removal rule gives, which is never locked. Refuses
   with 1 to 14, and with 28 if the room is shorter than the plan. Bytes beyond the plan are untouched. */
oblakosh_planned oblakosh_plan(const uint8_t *sheet, size_t sheet_length, uint8_t *room, size_t room_length);

/* The same for the plain rule: writes the sheet's plan by arrival, then cart number, in every zone, which is never locked.
   Refuses with 1 to 14, and with 28 if the room is shorter than the plan. Bytes beyond the plan are untouched. */
oblakosh_planned oblakosh_plan_first(const uint8_t *sheet, size_t sheet_length, uint8_t *room, size_t room_length);

/* The same for the better of the two: works out both plans and writes the one that finishes earlier, the removal rule's if
   they finish at the same time. Refuses with 1 to 14, and with 28 if the room is shorter than the plan. Bytes beyond the
   plan are untouched. */
oblakosh_planned oblakosh_plan_better(const uint8_t *sheet, size_t sheet_length, uint8_t *room, size_t room_length);

/* ---- one zone's list */

typedef struct {
    oblakosh_outcome outcome;
    size_t start;
    size_t length;
} oblakosh_list_found;

/* Where the zone's passing list stands in the plan lent: the bytes plan[start] to plan[start + length - 1] are the cart
   numbers, first through first. The part lies within the plan. Refuses with 1 to 21 and 27. */
oblakosh_list_found oblakosh_find_list(const uint8_t *sheet, size_t sheet_length, const uint8_t *plan, size_t plan_length,
                                       size_t zone);

/* ---- moving carts */

typedef struct {
    uint8_t position[OBLAKOSH_CARTS]; /* 0 on the lane, k in the k-th zone of its route, steps + 1 out; absent carts 0 */
    uint32_t made;                    /* the number of moves made */
} oblakosh_record;                    /* all zero is the start */

typedef struct {
    oblakosh_outcome outcome;
    uint8_t position;             /* the cart's new position */
    uint32_t made;                /* the new number of moves made */
    uint32_t ahead;               /* with 26 only: how many carts ahead have not left the zone that the cart wants, and one
                                     more if it is to leave the lane and the cart in front has not */
} oblakosh_asked;

/* Whether the cart may make its next move now, and what the record would then hold. Refuses with 1 to 26. A lane is left in
   the order of its carts' numbers: a first move waits for that of the next lower-numbered cart of the lane. */
oblakosh_asked oblakosh_ask(const uint8_t *sheet, size_t sheet_length, const uint8_t *plan, size_t plan_length,
                            oblakosh_record record, size_t cart);

/* To be called before a cart rolls, which it may if this is done. The same answer, and if done the cart's position and the
   number of moves are stored in the record; the other positions are untouched. */
oblakosh_asked oblakosh_move_cart(const uint8_t *sheet, size_t sheet_length, const uint8_t *plan, size_t plan_length,
                                  oblakosh_record *record, size_t cart);

/* ---- why a cart does not move */

typedef struct {
    oblakosh_outcome outcome;
    size_t length;                /* how many carts are in the chain, 1 to 16 */
    uint8_t cart[OBLAKOSH_CARTS]; /* begun at the cart asked about; each is held by the next: by the cart in front on its lane
                                     while that has not moved, else by the first of the wanted zone's list that has not left
                                     it. The last may move now. No cart stands in it twice */
    uint8_t zone[OBLAKOSH_CARTS]; /* the zone that each wants; 0 where the last wants to move out */
    uint8_t out;                  /* 1 if the last cart's move is the move out, else 0 */
} oblakosh_chain;

/* The chain from the cart down to one that may move now; a cart that may move is a chain of one. Refuses with 1 to 25, as
   moving does; 26 is never given. */
oblakosh_chain oblakosh_why(const uint8_t *sheet, size_t sheet_length, const uint8_t *plan, size_t plan_length,
                            oblakosh_record record, size_t cart);

/* ---- the Petri net of a plan */

#define OBLAKOSH_NET 80891        /* bytes of the longest net as text */

typedef struct {
    oblakosh_outcome outcome;
    size_t length;                    /* of the text written */
    uint8_t locked;                   /* 1 if a cart's out place has no token when no transition can fire, else 0 */
    uint8_t position[OBLAKOSH_CARTS]; /* of each cart the position whose place has its token then; absent carts 0 */
} oblakosh_net_run;

/* Builds the net of document 001, section 3.2, with places for the stop line, fires transitions until none can fire, and
   writes the net as text at the start of the room, a place, transition or arc a line (docs/NET.md). A locked plan is an
   answer here. Refuses with 1 to 21, and with 28 if the room is shorter than the text. Bytes beyond the text are untouched. */
oblakosh_net_run oblakosh_net(const uint8_t *sheet, size_t sheet_length, const uint8_t *plan, size_t plan_length,
                              uint8_t *room, size_t room_length);

/* ---- the layout that the libraries have: the size of each struct, and the place and size of each field, in bytes */

#if defined(__cplusplus) && __cplusplus >= 201103L
#define OBLAKOSH_HOLDS static_assert
#elif defined(__STDC_VERSION__) && __STDC_VERSION__ >= 201112L
#define OBLAKOSH_HOLDS _Static_assert
#endif
#ifdef OBLAKOSH_HOLDS
#define OBLAKOSH_STRUCT(type, bytes) OBLAKOSH_HOLDS(sizeof(type) == (bytes), #type)
#define OBLAKOSH_FIELD(type, field, place, bytes) \
    OBLAKOSH_HOLDS(offsetof(type, field) == (place) && sizeof(((type *)0)->field) == (bytes), #type "." #field)
OBLAKOSH_STRUCT(oblakosh_outcome, 16);
OBLAKOSH_FIELD(oblakosh_outcome, number, 0, 4);
OBLAKOSH_FIELD(oblakosh_outcome, cart, 4, 1);
OBLAKOSH_FIELD(oblakosh_outcome, step, 5, 1);
OBLAKOSH_FIELD(oblakosh_outcome, place, 8, 8);
OBLAKOSH_STRUCT(oblakosh_sheet, 848);
OBLAKOSH_FIELD(oblakosh_sheet, zones, 0, 8);
OBLAKOSH_FIELD(oblakosh_sheet, follow, 8, 48);
OBLAKOSH_FIELD(oblakosh_sheet, cross, 56, 48);
OBLAKOSH_FIELD(oblakosh_sheet, carts, 104, 8);
OBLAKOSH_FIELD(oblakosh_sheet, lane, 112, 16);
OBLAKOSH_FIELD(oblakosh_sheet, arrival, 128, 64);
OBLAKOSH_FIELD(oblakosh_sheet, steps, 192, 16);
OBLAKOSH_FIELD(oblakosh_sheet, zone, 208, 128);
OBLAKOSH_FIELD(oblakosh_sheet, passing, 336, 256);
OBLAKOSH_FIELD(oblakosh_sheet, travel, 592, 256);
OBLAKOSH_STRUCT(oblakosh_sheet_read, 864);
OBLAKOSH_FIELD(oblakosh_sheet_read, outcome, 0, 16);
OBLAKOSH_FIELD(oblakosh_sheet_read, sheet, 16, 848);
OBLAKOSH_STRUCT(oblakosh_orders, 664);
OBLAKOSH_FIELD(oblakosh_orders, count, 0, 24);
OBLAKOSH_FIELD(oblakosh_orders, list, 24, 384);
OBLAKOSH_FIELD(oblakosh_orders, ahead, 408, 256);
OBLAKOSH_STRUCT(oblakosh_plan_read, 1528);
OBLAKOSH_FIELD(oblakosh_plan_read, outcome, 0, 16);
OBLAKOSH_FIELD(oblakosh_plan_read, sheet, 16, 848);
OBLAKOSH_FIELD(oblakosh_plan_read, orders, 864, 664);
OBLAKOSH_STRUCT(oblakosh_ring, 40);
OBLAKOSH_FIELD(oblakosh_ring, length, 0, 8);
OBLAKOSH_FIELD(oblakosh_ring, cart, 8, 16);
OBLAKOSH_FIELD(oblakosh_ring, zone, 24, 16);
OBLAKOSH_STRUCT(oblakosh_judged, 64);
OBLAKOSH_FIELD(oblakosh_judged, outcome, 0, 16);
OBLAKOSH_FIELD(oblakosh_judged, finish, 16, 4);
OBLAKOSH_FIELD(oblakosh_judged, moves, 20, 4);
OBLAKOSH_FIELD(oblakosh_judged, ring, 24, 40);
OBLAKOSH_STRUCT(oblakosh_plan_written, 24);
OBLAKOSH_FIELD(oblakosh_plan_written, outcome, 0, 16);
OBLAKOSH_FIELD(oblakosh_plan_written, length, 16, 8);
OBLAKOSH_STRUCT(oblakosh_planned, 32);
OBLAKOSH_FIELD(oblakosh_planned, outcome, 0, 16);
OBLAKOSH_FIELD(oblakosh_planned, length, 16, 8);
OBLAKOSH_FIELD(oblakosh_planned, finish, 24, 4);
OBLAKOSH_STRUCT(oblakosh_list_found, 32);
OBLAKOSH_FIELD(oblakosh_list_found, outcome, 0, 16);
OBLAKOSH_FIELD(oblakosh_list_found, start, 16, 8);
OBLAKOSH_FIELD(oblakosh_list_found, length, 24, 8);
OBLAKOSH_STRUCT(oblakosh_record, 20);
OBLAKOSH_FIELD(oblakosh_record, position, 0, 16);
OBLAKOSH_FIELD(oblakosh_record, made, 16, 4);
OBLAKOSH_STRUCT(oblakosh_asked, 32);
OBLAKOSH_FIELD(oblakosh_asked, outcome, 0, 16);
OBLAKOSH_FIELD(oblakosh_asked, position, 16, 1);
OBLAKOSH_FIELD(oblakosh_asked, made, 20, 4);
OBLAKOSH_FIELD(oblakosh_asked, ahead, 24, 4);
OBLAKOSH_STRUCT(oblakosh_chain, 64);
OBLAKOSH_FIELD(oblakosh_chain, outcome, 0, 16);
OBLAKOSH_FIELD(oblakosh_chain, length, 16, 8);
OBLAKOSH_FIELD(oblakosh_chain, cart, 24, 16);
OBLAKOSH_FIELD(oblakosh_chain, zone, 40, 16);
OBLAKOSH_FIELD(oblakosh_chain, out, 56, 1);
OBLAKOSH_STRUCT(oblakosh_net_run, 48);
OBLAKOSH_FIELD(oblakosh_net_run, outcome, 0, 16);
OBLAKOSH_FIELD(oblakosh_net_run, length, 16, 8);
OBLAKOSH_FIELD(oblakosh_net_run, locked, 24, 1);
OBLAKOSH_FIELD(oblakosh_net_run, position, 25, 16);
#undef OBLAKOSH_FIELD
#undef OBLAKOSH_STRUCT
#undef OBLAKOSH_HOLDS
#endif

#ifdef __cplusplus
}
#endif

#endif
