/* The work of a page in plain C, to compare with: the same layout, without claims. `plain WORK ROUNDS` does one kind of work so often. */
#include <stdint.h>
#include <stdio.h>
#include <stdlib.h>
#include <string.h>

enum { PAGE = 8192, HEAD = 24, ENTRY = 4, MOST = 4000, RECORD = 100 };

static uint16_t number_at(const uint8_t *bytes, size_t at) {
    uint16_t number;
    memcpy(&number, bytes + at, 2);
    return number;
}

static void put_number(uint8_t *bytes, size_t at, uint16_t number) {
    memcpy(bytes + at, &number, 2);
}

/* Makes an empty page. */
static uint8_t *new_page(void) {
    uint8_t *page = malloc(PAGE);
    if (page) {
        memset(page, 0, PAGE);
        put_number(page, 18, PAGE);
    }
    return page;
}

/* Puts as many records into it as fit. */
static void fill(uint8_t *page, const uint8_t *record) {
    size_t end = HEAD;
    size_t slots = number_at(page, 16);
    while (end + RECORD + ENTRY * (slots + 1) <= PAGE) {
        memcpy(page + end, record, RECORD);
        slots++;
        put_number(page, PAGE - ENTRY * slots, (uint16_t)end);
        put_number(page, PAGE - ENTRY * slots + 2, RECORD);
        put_number(page, 16, (uint16_t)slots);
        put_number(page, 18, (uint16_t)(PAGE - ENTRY * slots));
        end += RECORD;
    }
}

/* The bytes of all records. */
static uint64_t get(const uint8_t *page) {
    uint64_t bytes = 0;
    for (size_t slot = 0; slot < number_at(page, 16); slot++) {
        size_t entry = PAGE - ENTRY * (slot + 1);
        if (number_at(page, entry) != 0)
            bytes += number_at(page, entry + 2);
    }
    return bytes;
}

/* A copy of a page whose records are in order, one behind another. */
static uint8_t *read_page(const uint8_t *text) {
    size_t slots = number_at(text, 16);
    size_t table = PAGE - ENTRY * slots;
    size_t end = HEAD;
    if (table < HEAD || number_at(text, 18) != table)
        return NULL;
    for (size_t slot = 0; slot < slots; slot++) {
        size_t offset = number_at(text, PAGE - ENTRY * (slot + 1));
        size_t bytes = number_at(text, PAGE - ENTRY * (slot + 1) + 2);
        if (offset == 0 && bytes == 0)
            continue;
        if (offset < end || bytes > MOST || offset + bytes > table)
            return NULL;
        end = offset + bytes;
    }
    uint8_t *page = malloc(PAGE);
    return page ? memcpy(page, text, PAGE) : NULL;
}

static uint64_t round_of(const char *work, uint8_t *page, const uint8_t *record) {
    if (!strcmp(work, "get"))
        return get(page);
    uint8_t *made = strcmp(work, "read") ? new_page() : read_page(page);
    if (made && !strcmp(work, "fill"))
        fill(made, record);
    uint64_t table = made ? number_at(made, 18) : 0;
    free(made);
    return table;
}

int main(int words, char **word) {
    static uint8_t record[RECORD];
    uint8_t *page = new_page();
    uint64_t sum = 0;
    if (!page || words != 3)
        return words != 1;
    memset(record, 0xaa, RECORD);
    fill(page, record);
    for (long round = atol(word[2]); round > 0; round--) {
        page[HEAD] = (uint8_t)round;
        sum += round_of(word[1], page, record);
    }
    printf("%s in plain C (%llu)\n", word[1], (unsigned long long)sum);
    free(page);
    return 0;
}
