/*
 * Several filter's ends at once, one in each of four threads, on libdeiruska; tests/test_c_library.py runs it under
 * helgrind.
 *
 *     c_threads TIMES <COMMANDS
 *
 * Each thread feeds the commands to a connection so often, and lets all mail go on. The connections are made by the
 * first thread, go to the others as these start, and come back as they end. The replies of each have to be the same;
 * its status is 1 where they aren't.
 */
#include <deiruska.h>
#include <pthread.h>
#include <stdio.h>
#include <stdlib.h>

#define THREADS 4
#define COMMANDS_MAX 1000000

static uint8_t commands[COMMANDS_MAX];
static size_t count;
static unsigned long times;

/* A thread, its connection, and a sum over the bytes of all replies. */
struct worker {
    pthread_t thread;
    deiruska_filter filter;
    unsigned long sum;
    bool failed;
};

/* Adds what is pending to the sum. */
static int32_t take_replies(struct worker *worker) {
    deiruska_bytes out = DEIRUSKA_NO_BYTES;
    int32_t result = deiruska_filter_pending(&worker->filter, &out);
    for (size_t at = 0; result == DEIRUSKA_OK && at < out.len; at++)
        worker->sum = worker->sum * 31 + out.at[at];
    return result == DEIRUSKA_OK ? deiruska_filter_sent(&worker->filter, out.len) : result;
}

/* Answers the open question. */
static int32_t go_on(struct worker *worker) {
    deiruska_answer answer = DEIRUSKA_EMPTY;
    int32_t result = deiruska_answer_new(&answer);
    if (result == DEIRUSKA_OK)
        result = deiruska_filter_answer(&worker->filter, &answer);
    deiruska_free(&answer.handle);
    return result;
}

/* Feeds all commands to the connection, and begins it again. */
static int32_t play(struct worker *worker) {
    size_t at = 0, taken = 0;
    int32_t result = DEIRUSKA_OK, step;
    while (result == DEIRUSKA_OK && (step = deiruska_filter_step(&worker->filter)) != DEIRUSKA_STEP_DONE) {
        if (step == DEIRUSKA_STEP_SEND) {
            result = take_replies(worker);
        } else if (step == DEIRUSKA_STEP_ANSWER) {
            result = go_on(worker);
        } else if (at < count) {
            result = deiruska_filter_feed(&worker->filter, commands + at, count - at, &taken);
            at += taken;
        } else {
            break;
        }
    }
    return result == DEIRUSKA_OK ? deiruska_filter_restart(&worker->filter) : result;
}

static void *work(void *given) {
    struct worker *worker = given;
    for (unsigned long time = 0; time < times && !worker->failed; time++)
        worker->failed = play(worker) != DEIRUSKA_OK;
    return NULL;
}

int main(int words, char **word) {
    struct worker workers[THREADS] = {0};
    bool failed = words != 2;
    times = words == 2 ? strtoul(word[1], NULL, 10) : 0;
    count = fread(commands, 1, COMMANDS_MAX, stdin);
    for (int at = 0; at < THREADS; at++) {
        workers[at].failed = deiruska_filter_new(&workers[at].filter, 6, 0, 0) != DEIRUSKA_OK;
        failed |= pthread_create(&workers[at].thread, NULL, work, &workers[at]) != 0;
    }
    for (int at = 0; at < THREADS; at++) {
        failed |= pthread_join(workers[at].thread, NULL) != 0;
        failed |= workers[at].failed || workers[at].sum != workers[0].sum || workers[at].sum == 0;
        deiruska_free(&workers[at].filter.handle);
    }
    return failed;
}
