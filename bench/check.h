/* The tests that every call makes, as a C program would make them: of the words of a table (docs/SOUND.md) and of a sheet. */
#ifndef CHECK_H
#define CHECK_H
#include <stddef.h>
#include <stdint.h>
int table_is_sound(const uint32_t *t, size_t length);
int cost_table_is_sound(const uint32_t *t, size_t length);
int sheet_is_good(const uint8_t *sheet, size_t length);
#endif
