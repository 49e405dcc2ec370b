/* SPDX-License-Identifier: ISC */
/* Reads the table of calls that tests/verifications writes, for the programs that answer it. */
#ifndef YEZDOPIN_TEST_TABLE_H
#define YEZDOPIN_TEST_TABLE_H

#include <stdint.h>
#include <stdio.h>
#include <stdlib.h>
#include <string.h>

#define MOST_FIELDS 9
#define MOST_VALUES 10000

typedef struct {
    uint8_t *bytes;
    size_t len;
} piece;

/* The bytes that lines name, by the number in the name. */
static piece values[MOST_VALUES];
static size_t values_count;

static inline void *held(void *memory) {
    if (!memory) abort();
    return memory;
}

static inline piece bytes_of(const char *hex) {
    size_t len = *hex == '-' ? 0 : strlen(hex) / 2;
    piece made = {held(malloc(len + 1)), len};
    for (size_t i = 0; i < len; i++) {
        char digits[3] = {hex[2 * i], hex[2 * i + 1], 0};
        made.bytes[i] = (uint8_t)strtoul(digits, NULL, 16);
    }
    return made;
}

/* A copy of the bytes of a field: hex digits, or named bytes, whole, cut at an end, longer, or with
 * a byte changed. It has no byte more, so that a check of memory finds a read past it. */
static inline piece field(const char *text) {
    if (*text != '@') return bytes_of(text);
    char *edit;
    size_t number = strtoul(text + 2, &edit, 10);
    if (number >= values_count) abort();
    piece from = values[number], more = bytes_of(*edit == '+' ? edit + 1 : "-");
    size_t at = *edit && *edit != '+' ? strtoul(edit + 1, &edit, 10) : 0;
    const char kind = text[strcspn(text, "=<>+")];
    if (kind == '<') from.len = at;
    if (kind == '>') from.bytes += at, from.len -= at;
    piece made = {held(malloc(from.len + more.len + (from.len + more.len == 0))),
                  from.len + more.len};
    memcpy(made.bytes, from.bytes, from.len);
    memcpy(made.bytes + from.len, more.bytes, more.len);
    if (kind == '=') made.bytes[at] = (uint8_t)strtoul(edit + 1, NULL, 16);
    free(more.bytes);
    return made;
}

static inline uint64_t number(const char *digits) { return strtoull(digits, NULL, 10); }

/* What is wrong with a call whose verdict may be right. */
static const char *fault;

/* Whether a call, by its words, is answered as wanted, or that it can't be written here. */
enum answered { DIFFERS, AGREES, LEFT_OUT };
typedef enum answered answerer(char **words, const char *wanted);

static inline void name_bytes(char **words) {
    if (values_count == MOST_VALUES || number(words[1] + 1) != values_count) abort();
    values[values_count++] = bytes_of(words[2]);
}

/* The words of a line, which is cut at its blanks. */
static inline void split(char *line, char **words) {
    int count = 0;
    for (char *at = strtok(line, " "); at && count < MOST_FIELDS; at = strtok(NULL, " "))
        words[count++] = at;
}

static inline enum answered answered_as(char *call, const char *wanted, answerer *answer) {
    char *words[MOST_FIELDS], *copy = held(strdup(call));
    fault = NULL;
    split(copy, words);
    enum answered found = answer(words, wanted);
    if (found == AGREES && fault) found = DIFFERS;
    if (found == DIFFERS)
        printf("FAILED: %.400s: %s, not %.100s\n", call, fault ? fault : "another answer", wanted);
    free(copy);
    return found;
}

/* Asks for the answer to each call of a table, and gives the status of a program. */
static inline int answer_all(const char *table, answerer *answer) {
    char *line = NULL, *call = NULL, *words[MOST_FIELDS];
    size_t room = 0, counted[3] = {0};
    FILE *file = fopen(table, "r");
    if (!file) return perror(table), 2;
    while (getline(&line, &room, file) > 0) {
        line[strcspn(line, "\n")] = 0;
        if (!strncmp(line, "#= ", 3)) counted[answered_as(call, line + 3, answer)]++;
        else if (!strncmp(line, "let ", 4)) split(line, words), name_bytes(words);
        else free(call), call = held(strdup(line));
    }
    free(line), free(call), fclose(file);
    printf("%zu calls are answered as they must be, %zu are not; %zu can't be written here\n",
           counted[AGREES], counted[DIFFERS], counted[LEFT_OUT]);
    return counted[DIFFERS] || !counted[AGREES];
}

#endif
