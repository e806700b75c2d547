/*
 * twoway: finding a pattern in a text, from the front and from the back.
 *
 * The functions stand in target/staticlib/libtwoway.a, for Linux on x86-64, which
 * `tools/library` writes. They read the bytes that they are given, allocate nothing, print
 * nothing and keep nothing between calls, so they may run in several threads at once.
 *
 * Each answers a position, counted in bytes from the text's first byte (which is 0), or one of
 * the three codes below. A position is at most TWOWAY_TEXT_MAX, so a code is never taken for
 * one.
 *
 * - A position is where an occurrence of the pattern starts: the first byte of the pattern
 *   equals the text's byte there, and so on to its last. twoway_find answers the first such
 *   position, twoway_rfind the last. An empty pattern occurs everywhere: twoway_find answers 0
 *   and twoway_rfind text_length.
 * - TWOWAY_NONE: the whole text was searched, and the pattern does not occur in it. A pattern
 *   longer than its text does not.
 * - TWOWAY_TEXT_TOO_LONG and TWOWAY_PATTERN_TOO_LONG: a refusal. Nothing was searched, and
 *   nothing is said about whether the pattern occurs. A length at its bound is searched, one
 *   more is refused. If both are too long, the answer is TWOWAY_TEXT_TOO_LONG.
 *
 * `text` points to `text_length` bytes and `pattern` to `pattern_length` bytes, any of them, 00
 * included. They must not change during the call; they may overlap. With length 0 the pointer
 * is not read: it may be any, also one behind the end of an array, and also NULL. With any
 * other length it must not be NULL.
 */
#ifndef TWOWAY_H
#define TWOWAY_H

#include <stddef.h>
#include <stdint.h>

#ifdef __cplusplus
extern "C" {
#endif

/* The longest text and the longest pattern that are searched, in bytes. */
#define TWOWAY_TEXT_MAX UINT64_C(67108864)
#define TWOWAY_PATTERN_MAX UINT64_C(65536)

/* 2^64-1: the pattern does not occur in the text. */
#define TWOWAY_NONE UINT64_C(0xffffffffffffffff)

/* 2^64-2, refusal 1: the text is longer than TWOWAY_TEXT_MAX. */
#define TWOWAY_TEXT_TOO_LONG UINT64_C(0xfffffffffffffffe)

/* 2^64-3, refusal 2: the pattern is longer than TWOWAY_PATTERN_MAX. */
#define TWOWAY_PATTERN_TOO_LONG UINT64_C(0xfffffffffffffffd)

/* The position of the first occurrence of the pattern in the text, or a code. */
uint64_t twoway_find(const uint8_t *text, size_t text_length,
                     const uint8_t *pattern, size_t pattern_length);

/* The position of the last occurrence of the pattern in the text, or a code. */
uint64_t twoway_rfind(const uint8_t *text, size_t text_length,
                      const uint8_t *pattern, size_t pattern_length);

#ifdef __cplusplus
}
#endif

#endif
