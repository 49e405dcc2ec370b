/* SPDX-License-Identifier: ISC */
/* What runtime.c does beside the C library, over the arguments of this program.
 * runtime FOLDER WORD.. */
#define _GNU_SOURCE
#include <errno.h>
#include <fcntl.h>
#include <stdint.h>
#include <stdio.h>
#include <string.h>
#include <sys/stat.h>
#include <unistd.h>

enum { MOST_LEN = 400, UNTOUCHED = 0xa5 };

struct tried {
    uint64_t ok;
    void *place;
};

struct tried rattle_alloc(size_t size, size_t align);
struct tried rattle_realloc(void *block, size_t kept, size_t size, size_t align);
void rattle_dealloc(void *block);
int32_t rattle_errno(void);
void rattle_set_errno(int32_t error);
int32_t rattle_open_dir_at(int32_t folder, const char *name);
int64_t rattle_arg(size_t number, unsigned char *buffer, size_t room);

static int failures;

#define CHECK(it)                                                 \
    do {                                                          \
        if (!(it)) {                                              \
            printf("%s:%d: %s fails\n", __FILE__, __LINE__, #it); \
            failures++;                                           \
        }                                                         \
    } while (0)

/* An argument in each room: no byte behind the room is written, and none behind the word. */
static void argument(size_t number, const char *word)
{
    size_t len = strlen(word);
    for (size_t room = 0; room <= len + 2; room++) {
        unsigned char buffer[MOST_LEN + 8], wanted[sizeof buffer];
        memset(buffer, UNTOUCHED, sizeof buffer);
        memset(wanted, UNTOUCHED, sizeof wanted);
        memcpy(wanted, word, room < len ? room : len);
        CHECK(rattle_arg(number, buffer, room) == (room < len ? -2 : (int64_t)len));
        CHECK(memcmp(buffer, wanted, sizeof wanted) == 0);
    }
}

static void folders(const char *path)
{
    int32_t folder = rattle_open_dir_at(AT_FDCWD, path), inner;
    CHECK(folder >= 0 && fcntl(folder, F_GETFD) == FD_CLOEXEC);
    CHECK(mkdirat(folder, "inner", 0700) == 0 && symlinkat("inner", folder, "link") == 0);
    inner = rattle_open_dir_at(folder, "inner");
    CHECK(inner >= 0 && fcntl(inner, F_GETFD) == FD_CLOEXEC);
    CHECK((fcntl(inner, F_GETFL) & O_ACCMODE) == O_RDONLY);
    CHECK(rattle_open_dir_at(folder, "link") == -1 && rattle_errno() == ENOTDIR);
    CHECK(rattle_open_dir_at(folder, "missing") == -1 && rattle_errno() == ENOENT);
    close(openat(folder, "file", O_CREAT | O_WRONLY | O_CLOEXEC, 0600));
    CHECK(rattle_open_dir_at(folder, "file") == -1 && rattle_errno() == ENOTDIR);
    rattle_set_errno(EINTR);
    CHECK(errno == EINTR && rattle_errno() == EINTR);
    close(inner);
    close(folder);
}

/* A block of no bytes has a place, and so has a request that is refused. */
static void memory(void)
{
    struct tried empty = rattle_alloc(0, 8), other = rattle_alloc(0, 8), block, grown, refused;
    CHECK(empty.ok == 1 && other.ok == 1 && empty.place != other.place);
    CHECK(empty.place != NULL && (uintptr_t)empty.place % 16 == 0);
    block = rattle_realloc(empty.place, 0, 3, 1);
    CHECK(block.ok == 1);
    memcpy(block.place, "abc", 3);
    grown = rattle_realloc(block.place, 3, 100000, 1);
    CHECK(grown.ok == 1 && memcmp(grown.place, "abc", 3) == 0);
    refused = rattle_realloc(grown.place, 100000, SIZE_MAX / 2 + 1, 1);
    CHECK(refused.ok == 0 && refused.place != NULL && memcmp(grown.place, "abc", 3) == 0);
    grown = rattle_realloc(grown.place, 100000, 0, 1);
    CHECK(grown.ok == 1 && grown.place != NULL);
    refused = rattle_alloc(SIZE_MAX / 2 + 1, 1);
    CHECK(refused.ok == 0 && refused.place != NULL);
    rattle_dealloc(grown.place);
    rattle_dealloc(other.place);
}

int main(int argc, char **argv)
{
    unsigned char buffer[1];
    if (argc < 2) return 2;
    for (int i = 0; i < argc; i++) {
        if (strlen(argv[i]) > MOST_LEN) return 2;
        argument((size_t)i, argv[i]);
    }
    CHECK(rattle_arg((size_t)argc, buffer, sizeof buffer) == -1);
    CHECK(rattle_arg(SIZE_MAX, buffer, sizeof buffer) == -1);
    folders(argv[1]);
    memory();
    printf("%d failures\n", failures);
    return failures != 0;
}
