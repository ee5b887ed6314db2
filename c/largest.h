/* Sheets for the tests, of any version: rows of all classes and technologies with every kind of canister, with written
 * loads and, where the version has them, with mileages. */
#ifndef LARGEST_H
#define LARGEST_H

#include <string.h>

#include "evaporation.h"

static inline void put_two(uint8_t *at, unsigned value) {
    at[0] = (uint8_t)(value % 256);
    at[1] = (uint8_t)(value / 256 % 256);
}

/* Row i: a class and technology of the table; without canister, or with a load or a mileage. */
static inline void put_row(uint8_t *row, unsigned version, unsigned i) {
    const unsigned vehicle_class = i % 9 + 1, technology = i % (vehicle_class <= 4 ? 6 : vehicle_class == 9 ? 3 : 4);
    memset(row, 0, 24);
    row[0] = (uint8_t)vehicle_class;
    row[1] = (uint8_t)technology;
    row[2] = (uint8_t)(i / 7 % 4);
    row[3] = (uint8_t)(i % 101);
    row[4] = (uint8_t)(i % 97);
    row[5] = (uint8_t)(i % 89);
    put_two(row + 8, 50000 + i);
    put_two(row + 12, 250 + i % 950);
    put_two(row + 14, 5 + i % 100);
    if (row[2] == 0)
        return;
    put_two(row + 18, 150); /* m_sat */
    if (version < 3 || i % 3 == 0)
        put_two(row + 16, 100);
    else
        put_two(row + 20, 20000 + i);
}

/* The sheet with so many seasons, up to 12, and rows, up to 1,000 in version 4 and up to 32 before; its length. */
static inline size_t make_sheet(uint8_t *sheet, unsigned version, unsigned seasons, unsigned rows) {
    const unsigned counts = version == 1 ? 48 : 576;
    uint8_t *at = sheet + 8;
    memcpy(sheet, "EVP", 3);
    put_two(sheet + 3, version);
    sheet[5] = (uint8_t)seasons;
    put_two(sheet + 6, rows);
    for (unsigned i = 0; i < counts; i++, at += 2)
        put_two(at, 1 + i % 40);
    for (unsigned i = 0; i < seasons; i++, at += 8) {
        put_two(at, 30);
        put_two(at + 2, 10 + 10 * i);
        put_two(at + 4, 60 + 17 * i);
        put_two(at + 6, 550 + 20 * i);
    }
    for (unsigned i = 0; i < rows; i++, at += 24)
        put_row(at, version, i);
    return (size_t)(at - sheet);
}

#endif
