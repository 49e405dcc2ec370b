/* SPDX-License-Identifier: ISC */
/* Times the program behind ./bench over texts of lines with random digits. */
#define _GNU_SOURCE
#include "speed.h"
#include <spawn.h>
#include <stdio.h>
#include <sys/resource.h>
#include <sys/wait.h>
#include <unistd.h>

#define RUNS 10

/* xorshift64*. The branch predictor would learn digits that repeat. */
static uint64_t random_bits(void) {
    static uint64_t state = 0x9e3779b97f4a7c15;
    state ^= state >> 12;
    state ^= state << 25;
    state ^= state >> 27;
    return state * 0x2545f4914f6cdd1d;
}

static void put_bytes(FILE *text, size_t len) {
    for (size_t i = 0; i < 2 * len; i++) putc("0123456789abcdef"[random_bits() >> 60], text);
}

static void put_line(FILE *text, const work *row, const hash *algorithm) {
    if (row->kind == DIGEST_LINE) {
        fprintf(text, "digest %s ", algorithm->name);
        put_bytes(text, row->len);
        fputs("\n", text);
        return;
    }
    fprintf(text, "pbkdf2 %s %d ", algorithm->name, ITERATIONS);
    put_bytes(text, KEY_LEN);
    fputs(" ", text);
    put_bytes(text, SALT_LEN);
    fprintf(text, " %zu\n", algorithm->out_len);
}

static double seconds(struct timeval time) {
    return (double)time.tv_sec + 1e-6 * (double)time.tv_usec;
}

/* The processor time of a run over a text. */
static double seconds_of_run(const char *program, FILE *text) {
    char *words[] = {(char *)program, NULL}, *environment[] = {NULL};
    FILE *answers = tmpfile();
    posix_spawn_file_actions_t files;
    pid_t process;
    int status;
    struct rusage used;
    if (!answers || lseek(fileno(text), 0, SEEK_SET)) fail(program, "no file for its answers");
    posix_spawn_file_actions_init(&files);
    posix_spawn_file_actions_adddup2(&files, fileno(text), 0);
    posix_spawn_file_actions_adddup2(&files, fileno(answers), 1);
    if (posix_spawn(&process, program, &files, NULL, words, environment))
        fail(program, "it can't be run");
    posix_spawn_file_actions_destroy(&files);
    if (wait4(process, &status, 0, &used) != process || status)
        fail(program, "it didn't answer all lines");
    fclose(answers);
    return seconds(used.ru_utime) + seconds(used.ru_stime);
}

static double least_seconds(const char *program, const work *row, const hash *algorithm,
                            size_t count) {
    FILE *text = tmpfile();
    double best = 0;
    if (!text) fail(program, "no file for its lines");
    for (size_t i = 0; i < count; i++) put_line(text, row, algorithm);
    if (fflush(text)) fail(program, "its lines can't be written");
    for (int run = 0; run < RUNS; run++) {
        double took = seconds_of_run(program, text);
        if (run == 0 || took < best) best = took;
    }
    fclose(text);
    return best;
}

/* The time of a run over an empty text is taken off. */
double time_of_line(const char *program, const work *row, const hash *algorithm) {
    double none = least_seconds(program, row, algorithm, 0);
    return 1e9 * (least_seconds(program, row, algorithm, row->count) - none) / (double)row->count;
}
