/* Secrets overwritten with zeros, in memory and on the stack, by gcc and clang on x86-64. */
#ifndef WIPE_H
#define WIPE_H

#include <stddef.h>
#include <string.h>

/* For a function that holds secrets: its frame then lies below its caller's, where wipe_stack reaches. */
#define WIPE_APART __attribute__((noinline))

/* Overwrites the bytes in a way that the compiler keeps: it takes them as read behind the memset. */
static inline void wipe(void *bytes, size_t length)
{
    memset(bytes, 0, length);
    __asm__ volatile("" : : "r"(bytes) : "memory");
}

/* 512 KiB: a call takes up to 311 (enum shearcotter_stack_kib), and the rest is for the function that makes it. */
enum { WIPE_STACK_PAGES = 128 };

/* Overwrites the stack below the caller's frame: what functions that the caller called before have left there. Goes down page by
 * page, so that a thread with too little stack ends at its guard page. */
static WIPE_APART __attribute__((unused)) void wipe_stack(void)
{
    size_t pages = WIPE_STACK_PAGES, count;
    void *low, *kept;
    __asm__ volatile("mov %%rsp, %[kept]\n"
                     "1:\n\t"
                     "sub $4096, %%rsp\n\t"
                     "mov %%rsp, %[low]\n\t"
                     "mov $4096, %[count]\n\t"
                     "rep stosb\n\t"
                     "dec %[pages]\n\t"
                     "jnz 1b\n\t"
                     "mov %[kept], %%rsp"
                     : [low] "=&D"(low), [count] "=&c"(count), [kept] "=&r"(kept), [pages] "+&r"(pages)
                     : "a"(0)
                     : "memory", "cc");
}

#endif
