/* A family is born, weds and dies; then an estate is divided. Prints what happens, and the shares. */
#include "heirs.h"

#include <inttypes.h>
#include <stdio.h>
#include <string.h>

enum { PERSONS = 64 };

enum kind { BORN, WED, PARTED, DIES, ESTATE_OF };

static uint32_t memory[HEIRS_WORDS(PERSONS)];
static uint8_t answer[HEIRS_BYTES(PERSONS)];

static const char *const names[] = {"Anna", "Bernd", "Clara", "David", "Elsa", "Frieda", "Georg"};

static void put4(uint8_t *to, uint32_t value) {
    for (int i = 0; i < 4; i++) {
        to[i] = (uint8_t)(value >> (8 * i));
    }
}

static uint64_t number(const uint8_t *from, int bytes) {
    uint64_t value = 0;
    for (int i = bytes; i-- > 0;) {
        value = value << 8 | from[i];
    }
    return value;
}

/* Makes a call with one value or two: the length of the answer, or a refusal, which is told. */
static int64_t call(enum kind kind, uint32_t one, uint32_t other) {
    uint8_t row[9];
    size_t length = kind == BORN || kind == WED ? 9 : 5;
    row[0] = (uint8_t)kind;
    put4(row + 1, one);
    put4(row + 5, other);
    int64_t result = heirs_call(memory, HEIRS_WORDS(PERSONS), row, length, answer, HEIRS_BYTES(PERSONS));
    if (result < 0) {
        printf("refused %" PRIu32 " at %" PRIu32 "\n", heirs_refusal(result), heirs_place(result));
    }
    return result;
}

/* A birth to parents who are given as 0 where not known, else as one more than their number. */
static void birth(uint32_t mother, uint32_t father) {
    if (call(BORN, mother, father) >= 0) {
        printf("%s is born\n", names[number(answer + 1, 4)]);
    }
}

static void estate(uint32_t who) {
    if (call(ESTATE_OF, who, 0) < 0) {
        return;
    }
    printf("the estate of %s:\n", names[who]);
    uint64_t heirs = number(answer + 1, 4);
    for (uint64_t i = 0; i < heirs; i++) {
        const uint8_t *share = answer + 5 + 20 * i;
        printf("  %s has %" PRIu64 "/%" PRIu64 "\n", names[number(share, 4)], number(share + 4, 8), number(share + 12, 8));
    }
}

int main(void) {
    int64_t opened = heirs_open(memory, HEIRS_WORDS(PERSONS), answer, HEIRS_BYTES(PERSONS), PERSONS);
    if (opened < 0) {
        printf("refused %" PRIu32 " at %" PRIu32 "\n", heirs_refusal(opened), heirs_place(opened));
        return 1;
    }
    birth(0, 0); /* 0, Anna */
    birth(0, 0); /* 1, Bernd */
    call(WED, 0, 1);
    puts("Anna and Bernd wed");
    birth(1, 2); /* 2, Clara */
    birth(1, 2); /* 3, David */
    birth(3, 0); /* 4, Elsa, a child of Clara */
    birth(3, 0); /* 5, Frieda, too */
    call(DIES, 2, 0);
    puts("Clara dies");
    estate(0);
    call(DIES, 1, 0);
    puts("Bernd dies");
    estate(0);
    puts("Bernd dies again");
    call(DIES, 1, 0);

    /* the words are stored, read back, and taken up again */
    static uint32_t stored[HEIRS_WORDS(PERSONS)];
    memcpy(stored, memory, sizeof stored);
    memset(memory, 0xff, sizeof memory);
    int64_t lost = heirs_check(memory, HEIRS_WORDS(PERSONS), answer, HEIRS_BYTES(PERSONS));
    printf("words that are no register's: refused %" PRIu32 " at %" PRIu32 "\n", heirs_refusal(lost), heirs_place(lost));
    memcpy(memory, stored, sizeof stored);
    printf("taken up again, with %" PRId64 " persons\n", heirs_check(memory, HEIRS_WORDS(PERSONS), answer, HEIRS_BYTES(PERSONS)));
    birth(0, 4); /* 6, Georg, a child of David */
    estate(3);
    return 0;
}
