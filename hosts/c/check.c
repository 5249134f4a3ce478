/* Installed as yuzgont-check: makes a pool over the library as it was installed, by the header's functions and by those that the shared library
 * exports under the same names, and says what it saw. Status 1 where anything is not as it should be.
 */
#include "yuzgont.h"

#include <dlfcn.h>
#include <stdio.h>
#include <stdlib.h>
#include <string.h>

#define NAME(text) (text), (sizeof(text) - 1)

static void expect(bool is_so, const char *what) {
    if (is_so) return;
    fprintf(stderr, "yuzgont-check: %s\n", what);
    exit(1);
}

/* The function that a shared library of this program exports under a name, or null. POSIX has dlsym answer functions so. */
static void find(const char *name, void *function) { *(void **)function = dlsym(RTLD_DEFAULT, name); }

static void by_header(void) {
    yuz_pool pool = YUZ_NO_POOL;
    uint8_t block[YUZ_BLOCK_SIZE] = {97}, read[YUZ_BLOCK_SIZE] = {0};
    uint64_t used = 0;
    bool is_hole = true;
    expect(yuz_create(&pool, 1, 1000) == YUZ_DONE, "create");
    expect(yuz_write(&pool, NAME("p"), 0, 0, block, sizeof block) == YUZ_DONE, "write");
    expect(yuz_snapshot(&pool, NAME("p@s"), false) == YUZ_DONE, "snapshot");
    expect(yuz_punch(&pool, NAME("p"), 0, 0) == YUZ_DONE, "punch");
    expect(yuz_read(&pool, NAME("p@s"), 0, 0, read, sizeof read, &is_hole) == YUZ_DONE && !is_hole, "read");
    expect(memcmp(block, read, sizeof block) == 0, "the snapshot has other bytes");
    /* A block under five levels of indirect blocks: six blocks of 512 bytes. */
    expect(yuz_get(&pool, NAME("p@s"), YUZ_USED, &used) == YUZ_DONE && used == 6 * YUZ_BLOCK_SIZE, "get");
    expect(yuz_snapshot(&pool, NAME("p@s"), false) == YUZ_EXISTS, "the same snapshot again");
    yuz_free(&pool);
    puts("yuzgont-check: the header's functions work");
}

static void by_names(void) {
    int (*create)(yuz_pool *, uint32_t, uint32_t);
    int (*sync)(yuz_pool *, uint64_t *);
    void (*let_go)(yuz_pool *);
    yuz_pool pool = YUZ_NO_POOL;
    uint64_t group = 0;
    find("yuz_create", &create);
    find("yuz_sync", &sync);
    find("yuz_free", &let_go);
    if (create == NULL && sync == NULL && let_go == NULL) {
        puts("yuzgont-check: linked with the static library, which has no names to look for");
        return;
    }
    expect(create != NULL && sync != NULL && let_go != NULL, "a name is missing");
    expect(create(NULL, 1, 1000) == YUZ_NULL, "a null handle");
    expect(create(&pool, 1, 1000) == YUZ_DONE, "create by its name");
    expect(sync(&pool, &group) == YUZ_DONE && group == 2, "sync by its name");
    let_go(&pool);
    expect(sync(&pool, &group) == YUZ_POOL_MISSING, "free by its name");
    puts("yuzgont-check: the exported functions work");
}

int main(void) {
    by_header();
    by_names();
    return 0;
}
