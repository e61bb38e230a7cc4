/*
 * Carries a command out in a thread with a stack of a given size, and says how much of it was used.
 *
 *     stack COMMAND BYTES < document
 *
 * It prints the status of the call and the bytes that were used. Below the stack is a page that can't be written, so a
 * call that needs more ends the program.
 */
#include <argo_judge.h>
#include <pthread.h>
#include <stdio.h>
#include <stdlib.h>
#include <string.h>
#include <sys/mman.h>
#include <unistd.h>

enum { MOST = 1 << 25, UNUSED = 0xA5 };

static uint8_t input[MOST], output[MOST];
static size_t input_length;
static uint32_t command;
static uint8_t status;

static void *call(void *nothing)
{
    size_t written = 0;
    status = argo_judge_run(command, input, input_length, output, sizeof output, &written);
    return nothing;
}

int main(int count, char **words)
{
    if (count != 3)
        return 2;
    command = (uint32_t)strtoul(words[1], NULL, 10);
    size_t size = strtoul(words[2], NULL, 10), page = (size_t)sysconf(_SC_PAGESIZE);
    input_length = fread(input, 1, sizeof input, stdin);
    uint8_t *room = mmap(NULL, size + page, PROT_READ | PROT_WRITE, MAP_PRIVATE | MAP_ANONYMOUS, -1, 0);
    if (room == MAP_FAILED || mprotect(room, page, PROT_NONE) != 0)
        return 3;
    uint8_t *stack = room + page;
    memset(stack, UNUSED, size);
    pthread_attr_t attributes;
    pthread_t thread;
    if (pthread_attr_init(&attributes) != 0 || pthread_attr_setstack(&attributes, stack, size) != 0)
        return 4;
    if (pthread_create(&thread, &attributes, call, NULL) != 0 || pthread_join(thread, NULL) != 0)
        return 5;
    size_t unused = 0;
    while (unused < size && stack[unused] == UNUSED)
        unused++;
    printf("%u %zu\n", (unsigned)status, size - unused);
    return 0;
}
