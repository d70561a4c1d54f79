/* Judges document 01's sheet S with its plans A and B and prints what its judge program prints.
   cc -Iinclude examples/link.c target/staticlib/liblinked_judge.a */
#include <stdio.h>

#include "oblakosh.h"

static const uint8_t sheet_s[] = {
    0x01, 0x00, 0x2D, 0x02, 0x00, 0xC8, 0x01, 0x2C, 0x00, 0xC8, 0x01, 0x2C, 0x02,
    0x00, 0x00, 0x00, 0x00, 0x00, 0x02, 0x00, 0x03, 0xE8, 0x00, 0x64, 0x01, 0x03, 0xE8, 0x00, 0x00,
    0x01, 0x00, 0x00, 0x01, 0xF4, 0x02, 0x01, 0x03, 0xE8, 0x00, 0x64, 0x00, 0x03, 0xE8, 0x00, 0x00,
};
static const uint8_t plan_a[] = {0x01, 0x00, 0x0A, 0x02, 0x02, 0x00, 0x01, 0x02, 0x00, 0x01};
static const uint8_t plan_b[] = {0x01, 0x00, 0x0A, 0x02, 0x02, 0x00, 0x01, 0x02, 0x01, 0x00};

/* One line for each step. A cart leaves its last zone when it has passed; another when it sets out to enter the next. */
static void show_times(const oblakosh_sheet *sheet, const uint32_t *words)
{
    for (size_t cart = 0; cart < sheet->carts; cart++) {
        for (size_t step = 0; step < sheet->steps[cart]; step++) {
            uint32_t enter = words[OBLAKOSH_STEPS * cart + step];
            uint32_t leave = step + 1 == sheet->steps[cart]
                                 ? enter + sheet->passing[cart][step]
                                 : words[OBLAKOSH_STEPS * cart + step + 1] - sheet->travel[cart][step];
            printf("cart %zu zone %u enter %u leave %u\n", cart, sheet->zone[cart][step], enter, leave);
        }
    }
}

static void show_ring(const oblakosh_ring *ring)
{
    for (size_t k = 0; k < ring->length; k++) {
        printf("cart %u waits at zone %u for cart %u\n", ring->cart[k], ring->zone[k], ring->cart[(k + 1) % ring->length]);
    }
}

/* With the cart and the step, where the refusal stands inside a cart's part of the sheet. */
static void show_refusal(const oblakosh_outcome *outcome)
{
    printf("refused %u at %zu", outcome->number, outcome->place);
    if (outcome->cart != 0) {
        printf(" cart %u step %u", outcome->cart, outcome->step);
    }
    printf("\n");
}

static void judge(const uint8_t *sheet, size_t sheet_length, const uint8_t *plan, size_t plan_length)
{
    uint32_t words[OBLAKOSH_WORDS];
    oblakosh_judged judged = oblakosh_judge(sheet, sheet_length, plan, plan_length, words, OBLAKOSH_WORDS);
    if (judged.outcome.number != OBLAKOSH_DONE) {
        show_refusal(&judged.outcome);
        show_ring(&judged.ring);
        return;
    }
    printf("ok moves %u finish %u\n", judged.moves, judged.finish);
    oblakosh_sheet_read read = oblakosh_read_sheet(sheet, sheet_length);
    show_times(&read.sheet, words);
}

int main(void)
{
    judge(sheet_s, sizeof sheet_s, plan_a, sizeof plan_a);
    judge(sheet_s, sizeof sheet_s, plan_b, sizeof plan_b);
    return 0;
}
