/*
 * The C functions with one fault each, put in on purpose, over the right ones, which have the
 * names right_find and right_rfind here. `differ-break` links `differ` with them.
 */
#include "twoway.h"

uint64_t right_find(const uint8_t *text, size_t text_length,
                    const uint8_t *pattern, size_t pattern_length);
uint64_t right_rfind(const uint8_t *text, size_t text_length,
                     const uint8_t *pattern, size_t pattern_length);

/* 1: a position is one too small where the text is longer than 5,000 bytes. */
static uint64_t one_less(uint64_t answer, size_t text_length) {
    int found = 0 < answer && answer <= text_length;
    return found && text_length > 5000 ? answer - 1 : answer;
}

/* 2: find answers none for an occurrence of two bytes or more that ends where the text ends. */
static uint64_t not_last(uint64_t answer, size_t text_length, size_t pattern_length) {
    int last = pattern_length > 1 && answer + pattern_length == text_length;
    return last ? TWOWAY_NONE : answer;
}

/* 4: a single byte is reported at the first byte of its eight. */
static uint64_t rounded(uint64_t answer, size_t text_length, size_t pattern_length) {
    return pattern_length == 1 && answer < text_length ? answer - answer % 8 : answer;
}

/* 5, 6: for a single byte, the byte behind the text is read, or the one before it. */
static void read_outside(const uint8_t *text, size_t text_length, size_t pattern_length) {
    if (pattern_length == 1 && text_length > 0)
        (void)*(const volatile uint8_t *)(FAULT == 5 ? text + text_length : text - 1);
}

uint64_t twoway_find(const uint8_t *text, size_t text_length,
                     const uint8_t *pattern, size_t pattern_length) {
    uint64_t answer = right_find(text, text_length, pattern, pattern_length);
    switch (FAULT) {
    case 1: return one_less(answer, text_length);
    case 2: return not_last(answer, text_length, pattern_length);
    case 4: return rounded(answer, text_length, pattern_length);
    case 5: read_outside(text, text_length, pattern_length); return answer;
    default: return answer;
    }
}

/* 3: rfind answers as find does. */
uint64_t twoway_rfind(const uint8_t *text, size_t text_length,
                      const uint8_t *pattern, size_t pattern_length) {
    uint64_t answer = right_rfind(text, text_length, pattern, pattern_length);
    switch (FAULT) {
    case 1: return one_less(answer, text_length);
    case 3: return right_find(text, text_length, pattern, pattern_length);
    case 6: read_outside(text, text_length, pattern_length); return answer;
    default: return answer;
    }
}
