/*
 * Carries a command out on the document on standard input again and again, each time with one more allocation before
 * the first that is refused, until none is. Each call under refusals has to return ARGO_JUDGE_OUT_OF_MEMORY and to
 * leave the buffer as it was, or to return what the call with ample memory returned. Each gives all its memory back.
 */
#include <argo_judge.h>
#include <stdio.h>
#include <stdlib.h>
#include <string.h>

enum { CAPACITY = 1 << 20, INPUT = 1 << 20, FILL = 0xa5 };

void *__real_malloc(size_t size);
void *__real_realloc(void *block, size_t size);
void __real_free(void *block);

/* How many more allocations succeed; all where it is negative. */
static long allowed = -1;
static long refused = 0;
static long kept = 0;

static int is_refused(void) {
    if (allowed < 0) {
        return 0;
    }
    if (allowed > 0) {
        allowed--;
        return 0;
    }
    refused++;
    return 1;
}

void *__wrap_malloc(size_t size) {
    void *block = is_refused() ? NULL : __real_malloc(size);
    kept += block != NULL;
    return block;
}

void *__wrap_realloc(void *block, size_t size) {
    void *grown = is_refused() ? NULL : __real_realloc(block, size);
    kept += block == NULL && grown != NULL;
    return grown;
}

void __wrap_free(void *block) {
    kept -= block != NULL;
    __real_free(block);
}

static uint8_t input[INPUT], output[CAPACITY], wanted[CAPACITY];

/* Whether the buffer is as it was filled. */
static int is_left(void) {
    for (size_t at = 0; at < CAPACITY; at++) {
        if (output[at] != FILL) {
            return 0;
        }
    }
    return 1;
}

static int fail(long turn, const char *what) {
    fprintf(stderr, "with %ld allocations: %s\n", turn, what);
    return 1;
}

int main(int count, char **words) {
    uint32_t command = count > 1 ? (uint32_t)strtoul(words[1], NULL, 10) : ARGO_JUDGE_RUN;
    size_t length = fread(input, 1, INPUT, stdin), wanted_length = 0;
    long out_of_memory = 0, answered = 0;
    uint8_t status = argo_judge_run(command, input, length, wanted, CAPACITY, &wanted_length);
    if (kept != 0) {
        return fail(-1, "memory is kept");
    }
    for (long turn = 0;; turn++) {
        size_t written = 1;
        memset(output, FILL, CAPACITY);
        allowed = turn;
        refused = 0;
        uint8_t own = argo_judge_run(command, input, length, output, CAPACITY, &written);
        allowed = -1;
        if (kept != 0) {
            return fail(turn, "memory is kept");
        }
        if (own == ARGO_JUDGE_OUT_OF_MEMORY && refused > 0) {
            if (written != 0 || !is_left()) {
                return fail(turn, "something was written");
            }
            out_of_memory++;
            continue;
        }
        if (own != status || written != wanted_length || memcmp(output, wanted, written) != 0) {
            return fail(turn, "another answer");
        }
        answered++;
        if (refused == 0) {
            break;
        }
    }
    printf("%ld calls out of memory, %ld answered\n", out_of_memory, answered);
    return 0;
}
