/*
 * argo_judge as a C library: judges canary measurements by the conditions of Argo Rollouts' analysis.
 *
 * A call carries out one command on one JSON document, as the program argo_judge does with the document on its
 * standard input; docs/use/formats.md describes documents and answers. Calls start no threads, keep no memory
 * between them, and read and write nothing but what is passed. Several threads may call at the same time, each with
 * buffers of its own and a stack of ARGO_JUDGE_STACK bytes. Don't call from a signal handler, or from the forked child
 * of a process with threads.
 *
 * Link libargo_judge.a or libargo_judge.so. Of other libraries they need the C library and, where the compiler doesn't
 * link it by itself, libgcc; memory comes from malloc, realloc and free.
 */
#ifndef ARGO_JUDGE_H
#define ARGO_JUDGE_H

#include <stdbool.h>
#include <stddef.h>
#include <stdint.h>

#ifdef __cplusplus
extern "C" {
#endif

/* Commands. ARGO_JUDGE_JSON is added to one for its answer as JSON; a list has no JSON. */
#define ARGO_JUDGE_EVAL 0u    /* `eval`: one condition on one value */
#define ARGO_JUDGE_CHECK 1u   /* `check`: the bounds of each condition */
#define ARGO_JUDGE_LIST 2u    /* `list`: the code of each condition */
#define ARGO_JUDGE_RUN 3u     /* `run --plain`: the report of all runs */
#define ARGO_JUDGE_EXPLAIN 4u /* `explain`: what led to each event */
#define ARGO_JUDGE_JSON 16u

/*
 * The bytes of stack with which a thread may call. The greatest need that tests find, over the deepest conditions,
 * shapes and values that are taken, is below half of it; this is tested, not proved. A thread with less may die.
 */
#define ARGO_JUDGE_STACK 1048576u

/* Statuses, which are the program's but for the last. */
#define ARGO_JUDGE_GOOD 0          /* done; the answer is in `output` */
#define ARGO_JUDGE_BAD 1           /* done, and a run is Failed, Error or Inconclusive; the answer is in `output` */
#define ARGO_JUDGE_REFUSED 2       /* the command or the input is refused; why is in `output`, as a line or as JSON */
#define ARGO_JUDGE_OUT_OF_MEMORY 3 /* malloc or realloc returned null; `output` is as it was, and `*written` is 0 */
#define ARGO_JUDGE_TOO_SMALL 4     /* `output` is too small and is as it was; `*written` is how large it has to be */

/*
 * Carries a command out on the document of `input_length` bytes at `input`.
 *
 * The text that the program would write is put at the front of the `output_capacity` bytes at `output`, without a byte
 * 0 at its end, and its length into `*written`: the answer on its standard output, or what it writes of a refusal on its
 * standard error: the JSON object with its line feed for the numbers from 16 on, and the line without `argo_judge: ` before
 * it and a line feed after it for the others. The other bytes at `output` stay as they are.
 *
 * `input` and `output` may not be null, also where their lengths are 0, and `output`, `input` and `*written` may not
 * overlap. An input of more than 16,777,216 bytes is refused.
 */
uint8_t argo_judge_run(uint32_t command, const uint8_t *input, size_t input_length, uint8_t *output,
                       size_t output_capacity, size_t *written);

/*
 * Puts the version, as `argo_judge --version` prints it after the program's name, at the front of the
 * `output_capacity` bytes at `output`, and its length into `*written`. Returns whether it fits; where it doesn't,
 * `output` is as it was. A release writes the commit into that text after the proof, so that it is the proved program's
 * version is tested there, not proved; all else that is proved of the calls holds in a release, too.
 */
bool argo_judge_version(uint8_t *output, size_t output_capacity, size_t *written);

#ifdef __cplusplus
}
#endif

#endif
