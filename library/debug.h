/* The library for debugging, libcgrlist-debug.a: a call with a plan or a listing that was closed, or with a copy of the bytes
 * of one, prints what is wrong and aborts. What is closed stays allocated, but for what is behind it. */
#ifndef DEBUG_H
#define DEBUG_H

#include <stdint.h>
#include <stdio.h>
#include <stdlib.h>

/* Where a plan or a listing was made, and whether it is open. */
typedef struct mark { const void *self; uint64_t state; } mark;

#define OPEN UINT64_C(0x6367726c6973743a)
#define CLOSED UINT64_C(0x3a7473696c726763)

static void check(const mark *it, const void *self, const char *call) {
    if (it->state == OPEN && it->self == self) return;
    fprintf(stderr, "%s: %s\n", call, it->state == CLOSED ? "it was closed before" : "it is a copy, or none of the library's");
    abort();
}

#define MARK mark mark;
#define BEGIN(made) ((made)->mark.self = (made), (made)->mark.state = OPEN)
#define CHECK(opened) check(&(opened)->mark, (opened), __func__)
#define END(opened) ((opened)->mark.state = CLOSED)

#endif
