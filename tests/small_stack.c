/* Whether an element is nil, asked on a stack of so many bytes that ends at a page which can't be written:
 *
 *     small_stack BYTES PLACES
 *
 * PLACES is how many keys the key tables have room for. Prints the answer of mz_has_nil, of a tag that says yes. */
#define _GNU_SOURCE
#include "mezzulidda.h"

#include <stdio.h>
#include <stdlib.h>
#include <string.h>
#include <sys/mman.h>
#include <ucontext.h>
#include <unistd.h>

#define TAG "e a='1' xsi:nil='true' b='2'"
#define URI "http://www.w3.org/2001/XMLSchema-instance"

static uint8_t text[400];
static size_t records[16 * MZ_RECORD], head[MZ_HEAD];
static size_t starts[MZ_KEYS], ends[MZ_KEYS], state[MZ_STATE] = {MZ_NEXT, 1, 0, 0};
static uint32_t hashes[MZ_KEYS];
static size_t places, answer;
static ucontext_t here, there;

static void ask(void) {
    answer = mz_has_nil(text, sizeof text, records, sizeof records / sizeof *records, head, (const uint8_t *)TAG, strlen(TAG),
                        starts, places, ends, places, hashes, places, state, false, true);
}

int main(int argc, char **argv) {
    size_t page = (size_t)sysconf(_SC_PAGESIZE), detail[MZ_DETAIL];
    size_t size = argc > 1 ? strtoul(argv[1], NULL, 10) : 0;
    places = argc > 2 ? strtoul(argv[2], NULL, 10) : MZ_KEYS;
    if (size == 0 || places > MZ_KEYS) {
        return 2;
    }
    if (mz_fresh(text, sizeof text, records, sizeof records / sizeof *records, head) != 0 ||
        mz_add(text, sizeof text, records, sizeof records / sizeof *records, head, true, (const uint8_t *)"xsi", 3, (const uint8_t *)URI,
               strlen(URI), detail) != 0) {
        return 2;
    }
    /* the stack grows down, to the page that can't be written */
    char *stack = mmap(NULL, page + size, PROT_READ | PROT_WRITE, MAP_PRIVATE | MAP_ANONYMOUS, -1, 0);
    if (stack == MAP_FAILED || mprotect(stack, page, PROT_NONE) != 0 || getcontext(&there) != 0) {
        return 2;
    }
    there.uc_stack.ss_sp = stack + page;
    there.uc_stack.ss_size = size;
    there.uc_link = &here;
    makecontext(&there, ask, 0);
    if (swapcontext(&here, &there) != 0) {
        return 2;
    }
    printf("%zu\n", answer);
    return 0;
}
