/* Prints names that collide in a map whose hashes start from a known number:

       collisions COUNT [DRAWN [BITS]]
       collisions blocks COUNT [DRAWN [BITS]]
       collisions paths COUNT [DRAWN]

   A map of `indexmap` takes a hash of 64 bits, combines its halves, and finds an entry by two parts
   of the 32 bits. The low bits choose the group in which the search begins (12 bits for 36,000
   entries, 9 for 6,000), and the top 8 bits are a tag that is compared first. All names that are
   printed agree in both parts, so a look-up compares each of them.

   The search tries names of ten bytes, a letter and then letters and digits, in order, and hashes
   them as `NameHasher` does. Names that differ only in their last two bytes share the work for the
   first eight, which are one block. BITS of the low bits agree, by default 12: then one of 2^20
   names is printed, and 5,000 names take some ten seconds. The number from which hashes start is
   DRAWN, by default 0, as in `HashKeys::default`.

   Paths, and the names that a block binds, are hashed by `HashKeys::hash_bytes`. A name of ten bytes
   is two numbers there, its first and its last eight bytes: one step takes in both, and another one
   the length. With `blocks` these names are searched for in the same way.

   Paths may have any bytes, and need no search if the number is known. The second half of sixteen
   bytes is added to the factor. If the sum is 2^64, the product is 0, whatever the first half is. So
   with `paths` a name is eight bytes that differ and the eight bytes of 2^64 less the factor, and
   all 64 bits of the hashes are the same. */

#include <stdint.h>
#include <stdio.h>
#include <stdlib.h>
#include <string.h>

#define LENGTH 10
#define BLOCK 8
#define PI UINT64_C(0x243f6a8885a308d3)
#define GOLDEN_RATIO UINT64_C(0x9e3779b97f4a7c15)
#define TAG UINT32_C(0xff000000)
#define BITS 12

static const char bytes[] = "abcdefghijklmnopqrstuvwxyz0123456789";

static uint64_t factor;
static uint32_t tag_and_group;

static uint64_t folded_product(uint64_t a, uint64_t b) {
    unsigned __int128 product = (unsigned __int128)a * b;
    return (uint64_t)product ^ (uint64_t)(product >> 64);
}

static uint64_t take_block(uint64_t state, uint64_t block) {
    return folded_product(state + block, factor);
}

static uint32_t table_hash(uint64_t hash) {
    return (uint32_t)(hash ^ hash >> 32);
}

static long left;
static char name[LENGTH + 1];

/* `pending` has a bit that is set, and then the bytes since the last whole block. */
static void search(uint64_t state, uint64_t pending, int place) {
    int count = place == 0 ? 26 : 36;
    for (int i = 0; i < count && left > 0; i++) {
        name[place] = bytes[i];
        uint64_t taken = pending << 8 | (unsigned char)bytes[i];
        if (place == BLOCK - 1) {
            search(take_block(state, taken), 1, place + 1);
        } else if (place < LENGTH - 1) {
            search(state, taken, place + 1);
        } else if ((table_hash(take_block(state, taken)) & tag_and_group) == (UINT32_C(1) << 24)) {
            puts(name);
            left--;
        }
    }
}

/* The same by `hash_bytes`. `latest` has the eight bytes before this place, the first one lowest, and
   `first` the first eight of the name. */
static void search_blocks(uint64_t drawn, uint64_t first, uint64_t latest, int place) {
    int count = place == 0 ? 26 : 36;
    for (int i = 0; i < count && left > 0; i++) {
        name[place] = bytes[i];
        uint64_t taken = latest >> 8 | (uint64_t)(unsigned char)bytes[i] << 56;
        if (place < LENGTH - 1) {
            search_blocks(drawn, place == BLOCK - 1 ? taken : first, taken, place + 1);
            continue;
        }
        uint64_t state = folded_product(drawn + first, factor + taken);
        if ((table_hash(take_block(state, LENGTH)) & tag_and_group) == (UINT32_C(1) << 24)) {
            puts(name);
            left--;
        }
    }
}

/* Prints paths of sixteen bytes. The last eight are 2^64 less the factor, the lowest byte first. */
static int print_paths(long count) {
    char end[BLOCK + 1] = "";
    for (int i = 0; i < BLOCK; i++) {
        end[i] = (char)(-factor >> 8 * i);
        if (end[i] == 0 || strchr("\n\r $:|/.", end[i])) {
            fprintf(stderr, "collisions: with this number no path of this form is one word\n");
            return 1;
        }
    }
    for (long number = 0; number < count; number++) {
        printf("n%07ld%s\n", number, end);
    }
    return 0;
}

int main(int argc, char **argv) {
    int paths = argc > 1 && strcmp(argv[1], "paths") == 0;
    int blocks = argc > 1 && strcmp(argv[1], "blocks") == 0;
    argc -= paths || blocks;
    argv += paths || blocks;
    if (argc < 2) {
        fprintf(stderr, "usage: collisions [blocks] COUNT [DRAWN [BITS]]\n       collisions paths COUNT [DRAWN]\n");
        return 2;
    }
    left = atol(argv[1]);
    uint64_t drawn = argc > 2 ? strtoull(argv[2], NULL, 0) : 0;
    int bits = argc > 3 ? atoi(argv[3]) : BITS;
    tag_and_group = TAG | ((UINT32_C(1) << bits) - 1);
    factor = folded_product(drawn ^ PI, GOLDEN_RATIO) | 1;
    if (paths) {
        return print_paths(left);
    }
    if (blocks) {
        search_blocks(drawn, 0, 0, 0);
        return 0;
    }
    /* The length is hashed first, as a block of its own. */
    search(take_block(drawn, LENGTH), 1, 0);
    return 0;
}
