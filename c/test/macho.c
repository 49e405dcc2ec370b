/* SPDX-License-Identifier: ISC */
/* Runs the code of a dylib for macOS on Linux: loads the file that YEZDOPIN_DYLIB names, and
 * answers each call of the header by the dylib's function of that name. Both systems pass arguments
 * alike on one kind of processor. The loader knows only what this library needs: segments, names,
 * addresses in its own data, pointers to what it takes of others, and what is to run first. calls.h
 * has X(NAME) for each call. */
#include <fcntl.h>
#include <stdint.h>
#include <stdio.h>
#include <stdlib.h>
#include <string.h>
#include <sys/mman.h>
#include <sys/stat.h>
#include <unistd.h>

/* As <mach-o/loader.h> and <mach-o/nlist.h> of macOS have them. */
#define MAGIC 0xfeedfacfu
enum { OF_DYLIB = 6 };
#define DYLD_INFO 0x80000022u
enum { SYMBOLS = 2, INDIRECT = 0xb, SEGMENT = 0x19 }; /* kinds of commands */
enum { NON_LAZY_POINTERS = 6, LAZY_POINTERS = 7, STARTS = 9, KIND = 0xff }; /* of sections */
enum { DEFINED_AND_SHOWN = 0xf, NAME_KIND = 0x1f };
typedef struct {
    uint32_t magic, cpu, cpu_subtype, type, commands, size, flags, reserved;
} header;
typedef struct {
    uint32_t kind, size;
} command;
typedef struct {
    uint32_t kind, size;
    char name[16];
    uint64_t address, room, offset, bytes;
    uint32_t most_protection, protection, sections, flags;
} segment;
typedef struct {
    char name[16], segment[16];
    uint64_t address, room;
    uint32_t offset, align, relocations, count, flags, first_indirect, reserved[2];
} section;
typedef struct {
    uint32_t kind, size, symbols, count, texts, room;
} symbols_command;
typedef struct {
    uint32_t kind, size, others[12], first, count;
} indirect_command;
typedef struct {
    uint32_t kind, size, addresses, len;
} info_command;
typedef struct {
    uint32_t text;
    uint8_t kind, section;
    uint16_t more;
    uint64_t value;
} symbol;

/* Each call jumps to where `find_calls` found it. */
#if defined(__x86_64__)
#define JUMP(name) "jmp *to_" #name "(%rip)\n"
#else
#define JUMP(name) "adrp x16, to_" #name "\nldr x16, [x16, :lo12:to_" #name "]\nbr x16\n"
#endif
#define X(name)                                                                                    \
    extern void *to_##name;                                                                        \
    __attribute__((visibility("hidden"))) void *to_##name;                                         \
    __asm__(".text\n.globl " #name "\n.type " #name ", %function\n" #name ":\n" JUMP(name));
#include "calls.h"
#undef X

static uint8_t *file, *memory;
static const symbols_command *names;
static const indirect_command *indirect;

static void refuse(const char *why) {
    fprintf(stderr, "macho: %s\n", why);
    exit(2);
}

static void read_file(void) {
    const char *path = getenv("YEZDOPIN_DYLIB");
    int opened = path ? open(path, O_RDONLY) : -1;
    struct stat of;
    if (opened < 0 || fstat(opened, &of)) refuse("YEZDOPIN_DYLIB names no file");
    file = mmap(NULL, (size_t)of.st_size, PROT_READ, MAP_PRIVATE, opened, 0);
    const header *head = (void *)file;
    if (file == MAP_FAILED || head->magic != MAGIC || head->type != OF_DYLIB)
        refuse("the file is no dylib of 64 bits");
}

/* The next command of a kind, or NULL; the first one where none came before. */
static const void *next(uint32_t kind, const void *before) {
    const header *head = (void *)file;
    const uint8_t *at = before ? before : file + sizeof *head;
    const uint8_t *end = file + sizeof *head + head->size;
    if (before) at += ((const command *)at)->size;
    while (at < end && ((const command *)at)->kind != kind) at += ((const command *)at)->size;
    return at < end ? at : NULL;
}

static const char *text_of(const symbol *it) {
    return (const char *)file + names->texts + it->text;
}

static const symbol *symbol_at(uint32_t number) {
    return (const symbol *)(void *)(file + names->symbols) + number;
}

/* Copies the segments to where they are in a process, from `memory` on. */
static void load_segments(void) {
    uint64_t room = 0;
    for (const segment *it = NULL; (it = next(SEGMENT, it));)
        if (it->address + it->room > room) room = it->address + it->room;
    memory = mmap(NULL, room, PROT_READ | PROT_WRITE, MAP_PRIVATE | MAP_ANONYMOUS, -1, 0);
    if (memory == MAP_FAILED) refuse("there is no room");
    for (const segment *it = NULL; (it = next(SEGMENT, it));)
        memcpy(memory + it->address, file + it->offset, it->bytes);
}

/* A number of seven bits a byte, the lowest first. */
static uint64_t number(const uint8_t **at) {
    uint64_t made = 0;
    unsigned bits = 0;
    do made |= (uint64_t)(**at & 0x7f) << bits, bits += 7;
    while (*(*at)++ & 0x80);
    return made;
}

static uint64_t address_of_segment(unsigned index) {
    const segment *it = next(SEGMENT, NULL);
    while (it && index--) it = next(SEGMENT, it);
    if (!it) refuse("an address is in no segment");
    return it->address;
}

/* Adds where the segments are to `count` addresses in them, with a gap behind each. */
static uint64_t moved(uint64_t place, uint64_t count, uint64_t gap) {
    for (; count; count--, place += sizeof(uint64_t) + gap) {
        uint64_t address;
        memcpy(&address, memory + place, sizeof address);
        address += (uint64_t)memory;
        memcpy(memory + place, &address, sizeof address);
    }
    return place;
}

/* Moves all addresses, by the codes of <mach-o/loader.h>, REBASE_OPCODE_... */
static void move_addresses(void) {
    const info_command *info = next(DYLD_INFO, NULL);
    if (!info) refuse("there is no list of addresses");
    const uint8_t *at = file + info->addresses, *end = at + info->len;
    uint64_t place = 0, count;
    while (at < end) {
        unsigned code = *at & 0xf0, small = *at & 0x0f;
        at++;
        switch (code) {
        case 0x00: return;
        case 0x10: break;
        case 0x20: place = address_of_segment(small), place += number(&at); break;
        case 0x30: place += number(&at); break;
        case 0x40: place += small * sizeof place; break;
        case 0x50: place = moved(place, small, 0); break;
        case 0x60: place = moved(place, number(&at), 0); break;
        case 0x70: place = moved(place, 1, 0), place += number(&at); break;
        case 0x80: count = number(&at), place = moved(place, count, number(&at)); break;
        default: refuse("a code of the list of addresses is unknown");
        }
    }
}

/* What the dylib takes of other libraries. dyld_stub_binder is never called: all is bound. */
static void *taken(const char *name) {
    if (!strcmp(name, "_memcpy")) return (void *)memcpy;
    if (!strcmp(name, "_memmove")) return (void *)memmove;
    if (!strcmp(name, "_memset")) return (void *)memset;
    if (!strcmp(name, "_getenv")) return (void *)getenv;
    if (strcmp(name, "dyld_stub_binder")) refuse(name);
    return NULL;
}

static void bind_section(const section *it) {
    const uint32_t *numbers = (void *)(file + indirect->first);
    uint32_t kind = it->flags & KIND;
    if (kind != NON_LAZY_POINTERS && kind != LAZY_POINTERS) return;
    for (uint64_t i = 0; i < it->room / sizeof(void *); i++) {
        void *to = taken(text_of(symbol_at(numbers[it->first_indirect + i])));
        memcpy(memory + it->address + i * sizeof to, &to, sizeof to);
    }
}

/* Runs the functions that are to run before any call. */
static void start_section(const section *it) {
    if ((it->flags & KIND) != STARTS) return;
    for (uint64_t i = 0; i < it->room / sizeof(uint64_t); i++) {
        uint64_t place;
        memcpy(&place, file + it->offset + i * sizeof place, sizeof place);
        ((void (*)(void))(memory + place))();
    }
}

static void for_sections(void (*work)(const section *)) {
    for (const segment *it = NULL; (it = next(SEGMENT, it));) {
        const section *sections = (const void *)(it + 1);
        for (uint32_t i = 0; i < it->sections; i++) work(sections + i);
    }
}

static void *place_of(const char *name) {
    for (uint32_t i = 0; i < names->count; i++) {
        const symbol *it = symbol_at(i);
        if ((it->kind & NAME_KIND) == DEFINED_AND_SHOWN && !strcmp(text_of(it), name))
            return memory + it->value;
    }
    refuse(name);
    return NULL;
}

static void find_calls(void) {
#define X(name) to_##name = place_of("_" #name);
#include "calls.h"
#undef X
}

__attribute__((constructor)) static void load(void) {
    read_file();
    names = next(SYMBOLS, NULL);
    indirect = next(INDIRECT, NULL);
    if (!names || !indirect) refuse("the dylib has no names");
    load_segments();
    move_addresses();
    for_sections(bind_section);
    find_calls();
    /* macOS numbers reading, writing and running as Linux does. */
    for (const segment *it = NULL; (it = next(SEGMENT, it));)
        if (it->room && mprotect(memory + it->address, it->room, (int)it->protection))
            refuse("the system refuses a protection");
    for_sections(start_section);
}
