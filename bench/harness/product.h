// The product's entries in C: a slice is a pointer and a length, `out` is three numbers, and the work buffers have their documented lengths. Each hands back
// the number of a refusal, or 0.
#ifndef PRODUCT_H
#define PRODUCT_H

#include <stddef.h>
#include <stdint.h>

uint64_t pier_load(const uint8_t *card, size_t card_length, uint64_t out[3]);
uint64_t pier_step(const uint8_t *card, size_t card_length, size_t state, uint8_t letter, uint64_t out[3]);
uint64_t pier_judge(const uint8_t *card, size_t card_length, const uint8_t *plan, size_t plan_length, uint64_t out[3]);
uint64_t pier_judge_lines(const uint8_t *card, size_t card_length, const uint8_t *lines, size_t lines_length, uint64_t *replies, size_t replies_length,
                          uint64_t out[3]);
uint64_t pier_shortest(const uint8_t *card, size_t card_length, const uint8_t *plan, size_t plan_length, uint64_t out[3]);
uint64_t pier_count(const uint8_t *card, size_t card_length, size_t letters, uint64_t out[3]);
uint64_t pier_compile(const uint8_t *text, size_t text_length, uint8_t *card, size_t card_length, uint8_t *low, size_t low_length, uint8_t *high,
                      size_t high_length, uint8_t *registers, size_t registers_length, uint8_t *stack, size_t stack_length, uint8_t *rows,
                      size_t rows_length, uint16_t *table, size_t table_length, uint16_t *work, size_t work_length, uint8_t *code,
                      size_t code_length, uint64_t out[3]);

enum { NAMES = 43706, REGISTERS = 10086, STACK = 63878, ROWS = 62464, TABLE = 14336, WORK = 6720, CODE = 32832 };

#endif
