/*
 * Carries a command out on the document on standard input, by the library: what the program prints, with its status.
 *
 *     cc -I include examples/embed/judge.c libargo_judge.a -o judge
 *     ./judge < document.json
 */
#include <argo_judge.h>
#include <stdio.h>
#include <stdlib.h>

/* All bytes of a stream, or NULL where they can't be read or there is no memory for them. */
static uint8_t *read_all(FILE *from, size_t *length) {
    size_t capacity = 1 << 16;
    uint8_t *bytes = malloc(capacity);
    *length = 0;
    while (bytes != NULL) {
        *length += fread(bytes + *length, 1, capacity - *length, from);
        if (*length < capacity) {
            break;
        }
        capacity *= 2;
        uint8_t *larger = realloc(bytes, capacity);
        if (larger == NULL) {
            free(bytes);
        }
        bytes = larger;
    }
    if (bytes != NULL && ferror(from)) {
        free(bytes);
        return NULL;
    }
    return bytes;
}

/* Carries a command out; where the buffer is too small, once more with one that is large enough. */
static uint8_t judge(uint32_t command, const uint8_t *input, size_t length, uint8_t **output, size_t *written) {
    size_t capacity = 4096;
    *output = malloc(capacity);
    while (*output != NULL) {
        uint8_t status = argo_judge_run(command, input, length, *output, capacity, written);
        if (status != ARGO_JUDGE_TOO_SMALL) {
            return status;
        }
        free(*output);
        capacity = *written;
        *output = malloc(capacity);
    }
    return ARGO_JUDGE_OUT_OF_MEMORY;
}

int main(int count, char **words) {
    uint32_t command = count > 1 ? (uint32_t)strtoul(words[1], NULL, 10) : ARGO_JUDGE_RUN;
    size_t length = 0;
    size_t written = 0;
    uint8_t *output = NULL;
    uint8_t *input = read_all(stdin, &length);
    if (input == NULL) {
        fprintf(stderr, "judge: the input can't be read\n");
        return 4;
    }
    uint8_t status = judge(command, input, length, &output, &written);
    if (status == ARGO_JUDGE_REFUSED) {
        fprintf(stderr, "argo_judge: %.*s\n", (int)written, (const char *)output);
    } else if (status == ARGO_JUDGE_OUT_OF_MEMORY) {
        fprintf(stderr, "argo_judge: out of memory\n");
    } else if (fwrite(output, 1, written, stdout) < written || fflush(stdout) != 0) {
        status = 4;
    }
    free(output);
    free(input);
    return status;
}
