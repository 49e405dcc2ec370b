/* SPDX-License-Identifier: ISC */
/* Trees of leaf hashes: those of Certificate Transparency's test, paths in trees of each size up to
 * 70, with altered ones, and what is refused. */
#include "check.h"
#include <string.h>

_Static_assert(sizeof(yz_merkle_hash) == YZ_MERKLE_HASH_LEN, "layout");
_Static_assert(_Alignof(yz_merkle_hash) == 1, "layout");

#define GARBAGE_TURNS 50000
#define MOST_LEAVES 70

/* The tree of eight entries that the file has: the entries, the roots of the trees over the first of
 * them, nodes of the tree over all, and proofs, by an index or by the size of a first tree. */
#define TREE "vectors/merkle/certificate_transparency.txt"
#define ENTRIES_COUNT 8
#define MOST_NODES 3
static struct {
    size_t entries_count, roots_count, nodes_count, proofs_count;
    struct {
        uint8_t bytes[16];
        size_t len;
    } entries[ENTRIES_COUNT];
    yz_merkle_hash roots[ENTRIES_COUNT + 1];
    struct {
        char name[8];
        yz_merkle_hash hash;
    } nodes[16];
    struct {
        bool of_leaf;
        size_t first, size, count;
        yz_merkle_hash path[MOST_NODES];
    } proofs[16];
} known;

static size_t read_bytes(const char *digits, uint8_t *bytes) {
    size_t len = *digits == '-' ? 0 : strlen(digits) / 2;
    for (size_t i = 0; i < len; i++) IS(sscanf(digits + 2 * i, "%2hhx", &bytes[i]), 1);
    return len;
}

static yz_merkle_hash node_of(const char *name) {
    size_t i = 0;
    while (i < known.nodes_count && strcmp(known.nodes[i].name, name) != 0) i++;
    IS(i < known.nodes_count, true);
    return known.nodes[i].hash;
}

static void read_proof(bool of_leaf) {
    size_t n = known.proofs_count++;
    known.proofs[n].of_leaf = of_leaf;
    known.proofs[n].first = strtoul(strtok(NULL, " \n"), NULL, 10);
    known.proofs[n].size = strtoul(strtok(NULL, " \n"), NULL, 10);
    for (char *name; (name = strtok(NULL, " \n")) != NULL;)
        known.proofs[n].path[known.proofs[n].count++] = node_of(name);
}

static void read_tree(void) {
    char line[200];
    FILE *file = fopen(TREE, "r");
    IS(file != NULL, true);
    while (file && fgets(line, sizeof line, file)) {
        const char *word = strtok(line, " \n");
        if (strcmp(word, "entry") == 0) {
            size_t n = known.entries_count++;
            known.entries[n].len = read_bytes(strtok(NULL, " \n"), known.entries[n].bytes);
        } else if (strcmp(word, "root") == 0) {
            strtok(NULL, " \n");
            IS(read_bytes(strtok(NULL, " \n"), known.roots[known.roots_count++].bytes), 32);
        } else if (strcmp(word, "node") == 0) {
            size_t n = known.nodes_count++;
            strcpy(known.nodes[n].name, strtok(NULL, " \n"));
            IS(read_bytes(strtok(NULL, " \n"), known.nodes[n].hash.bytes), 32);
        } else if (*word != '#') {
            read_proof(strcmp(word, "inclusion") == 0);
        }
    }
    IS(file && fclose(file) == 0, true);
    IS(known.entries_count, ENTRIES_COUNT);
    IS(known.roots_count, ENTRIES_COUNT + 1);
    IS(known.proofs_count, 8);
}

static bool is_same(const yz_merkle_hash *a, const yz_merkle_hash *b, size_t count) {
    return memcmp(a, b, count * sizeof *a) == 0;
}

static void is_unwritten_from(size_t from, const yz_merkle_hash *hashes, size_t count) {
    const uint8_t *bytes = (const uint8_t *)hashes;
    IS_UNWRITTEN(bytes + from * sizeof *hashes, (count - from) * sizeof *hashes);
}

/* The calls of one kind of proof: of a leaf, by its index, or of a first tree, by its size. */
static yz_status make_path(bool of_leaf, const yz_merkle_hash *leaves, size_t count, size_t first,
                           yz_merkle_hash *path, size_t room, size_t *path_count) {
    return of_leaf ? yz_merkle_inclusion_path(leaves, count, first, path, room, path_count)
                   : yz_merkle_consistency_path(leaves, count, first, path, room, path_count);
}

static yz_status verify_path(bool of_leaf, const yz_merkle_hash *hash, uint64_t first,
                             uint64_t size, const yz_merkle_hash *path, size_t count,
                             const yz_merkle_hash *root) {
    return of_leaf ? yz_merkle_verify_inclusion(hash, first, size, path, count, root)
                   : yz_merkle_verify_consistency(first, hash, size, root, path, count);
}

/* A path with a bit of one hash turned, and one that has a hash more or fewer, prove nothing; nor
 * does a path for another leaf or tree. */
static void altered_path(bool of_leaf, const yz_merkle_hash *hash, uint64_t first, uint64_t size,
                         const yz_merkle_hash *path, size_t count, const yz_merkle_hash *root) {
    yz_merkle_hash others[MOST_LEAVES + 1], other = *hash;
    memset(others, UNWRITTEN, sizeof others);
    memcpy(others, path, count * sizeof *path);
    IS(verify_path(of_leaf, hash, first, size, others, count, root), YZ_OK);
    IS(verify_path(of_leaf, hash, first, size, others, count + 1, root), YZ_UNSPECIFIED);
    IS(verify_path(of_leaf, hash, first, size, others, SIZE_MAX, root), YZ_UNSPECIFIED);
    IS(verify_path(of_leaf, hash, size, size, others, count, root), YZ_UNSPECIFIED);
    IS(verify_path(of_leaf, hash, first, first, others, count, root), YZ_UNSPECIFIED);
    IS(verify_path(of_leaf, hash, first, 0, others, count, root), YZ_UNSPECIFIED);
    IS(verify_path(of_leaf, hash, UINT64_MAX, UINT64_MAX, others, count, root), YZ_UNSPECIFIED);
    if (count) {
        IS(verify_path(of_leaf, hash, first, size, others, count - 1, root), YZ_UNSPECIFIED);
        IS(verify_path(of_leaf, hash, first, size, NULL, 0, root), YZ_UNSPECIFIED);
        others[below(count)].bytes[below(32)] ^= (uint8_t)(1u << below(8));
        IS(verify_path(of_leaf, hash, first, size, others, count, root), YZ_UNSPECIFIED);
    }
    other.bytes[below(32)] ^= (uint8_t)(1u << below(8));
    IS(verify_path(of_leaf, &other, first, size, path, count, root), YZ_UNSPECIFIED);
    other = *root;
    other.bytes[below(32)] ^= (uint8_t)(1u << below(8));
    IS(verify_path(of_leaf, hash, first, size, path, count, &other), YZ_UNSPECIFIED);
}

/* A path is written where there is room for it, and nothing past it; it verifies. */
static void path_in_rooms(bool of_leaf, const yz_merkle_hash *leaves, size_t size, size_t first,
                          const yz_merkle_hash *want, size_t count) {
    yz_merkle_hash path[MOST_NODES + 1];
    for (size_t room = count ? count - 1 : 0; room <= count + 1; room++) {
        size_t made = 9;
        memset(path, UNWRITTEN, sizeof path);
        yz_status status = make_path(of_leaf, leaves, size, first, path, room, &made);
        IS(status, room < count ? YZ_WRONG_LENGTH : YZ_OK);
        IS(made, status ? 9 : count);
        if (!status) IS(is_same(path, want, count), true);
        is_unwritten_from(status ? 0 : count, path, MOST_NODES + 1);
    }
}

/* The trees of Certificate Transparency's test. */
static void known_trees(void) {
    yz_merkle_hash leaves[ENTRIES_COUNT], root;
    for (size_t i = 0; i < ENTRIES_COUNT; i++) {
        const uint8_t *entry = known.entries[i].len ? known.entries[i].bytes : NULL;
        IS(yz_merkle_leaf(entry, known.entries[i].len, &leaves[i]), YZ_OK);
    }
    for (size_t size = 0; size <= ENTRIES_COUNT; size++) {
        IS(yz_merkle_root(size ? leaves : NULL, size, &root), YZ_OK);
        IS(is_same(&root, &known.roots[size], 1), true);
    }
    for (size_t i = 0; i < known.proofs_count; i++) {
        const size_t first = known.proofs[i].first, size = known.proofs[i].size;
        const bool of_leaf = known.proofs[i].of_leaf;
        const yz_merkle_hash *path = known.proofs[i].path,
                             *hash = of_leaf ? &leaves[first] : &known.roots[first];
        path_in_rooms(of_leaf, leaves, size, first, path, known.proofs[i].count);
        altered_path(of_leaf, hash, first, size, path, known.proofs[i].count, &known.roots[size]);
    }
}

/* In trees of each size all paths that are made verify, and no altered one does. */
static void all_paths(void) {
    yz_merkle_hash leaves[MOST_LEAVES], path[YZ_MERKLE_MAX_PATH], first, root;
    size_t count = 0;
    fill_at_random(leaves, sizeof leaves);
    for (size_t size = 1; size <= MOST_LEAVES; size++) {
        IS(yz_merkle_root(leaves, size, &root), YZ_OK);
        for (size_t i = 0; i < size; i++) {
            IS(yz_merkle_inclusion_path(leaves, size, i, path, sizeof path / sizeof *path, &count),
               YZ_OK);
            altered_path(true, &leaves[i], i, size, path, count, &root);
            if (i == 0) continue;
            IS(yz_merkle_root(leaves, i, &first), YZ_OK);
            IS(yz_merkle_consistency_path(leaves, size, i, path, sizeof path / sizeof *path,
                                          &count), YZ_OK);
            altered_path(false, &first, i, size, path, count, &root);
        }
    }
}

/* What has no path, and an entry that is too long, write nothing; any hashes, sizes and counts have
 * an answer. */
static void refused_trees(void) {
    yz_merkle_hash leaves[MOST_LEAVES], path[YZ_MERKLE_MAX_PATH];
    const size_t room = sizeof path / sizeof *path, past = ((size_t)1 << 61) - 1;
    size_t count = 9;
    fill_at_random(leaves, sizeof leaves);
    memset(path, UNWRITTEN, sizeof path);
    IS(yz_merkle_leaf(NULL, past, &path[0]), YZ_UNSPECIFIED);
    for (size_t size = 0; size <= 9; size++) {
        IS(yz_merkle_inclusion_path(leaves, size, size, path, room, &count), YZ_UNSPECIFIED);
        IS(yz_merkle_inclusion_path(leaves, size, SIZE_MAX, NULL, 0, &count), YZ_UNSPECIFIED);
        IS(yz_merkle_consistency_path(leaves, size, 0, path, room, &count), YZ_UNSPECIFIED);
        IS(yz_merkle_consistency_path(leaves, size, size, path, room, &count), YZ_UNSPECIFIED);
        IS(yz_merkle_consistency_path(leaves, size, SIZE_MAX, NULL, 0, &count), YZ_UNSPECIFIED);
    }
    IS(yz_merkle_inclusion_path(NULL, 0, 0, NULL, 0, &count), YZ_UNSPECIFIED);
    IS(yz_merkle_inclusion_path(leaves, 2, 0, NULL, 0, &count), YZ_WRONG_LENGTH);
    IS(yz_merkle_consistency_path(leaves, 2, 1, NULL, 0, &count), YZ_WRONG_LENGTH);
    is_unwritten_from(0, path, room);
    IS(count, 9);
    for (int turn = 0; turn < GARBAGE_TURNS; turn++) {
        uint64_t size = UINT64_MAX >> below(64), first = (uint64_t)rand() * (uint64_t)rand();
        fill_at_random(leaves, 2 * sizeof *leaves);
        for (int i = 0; i < 2; i++)
            IS(verify_path(i, &leaves[0], first % size, size, leaves, below(MOST_LEAVES),
                           &leaves[1]), YZ_UNSPECIFIED);
    }
}

int main(void) {
    read_tree(), known_trees(), all_paths(), refused_trees();
    return end_of_checks();
}
