/* The typed calls, each compared with what a line of the same pool tells; and want of memory at each. It prints one line, and ends with
 * status 1 where a call isn't what it should be. */
#include "yuzgont.h"

#include <inttypes.h>
#include <stdio.h>
#include <stdlib.h>
#include <string.h>

#define NAME(text) (text), (sizeof(text) - 1)

/* Which request for memory is refused: the first is 1, and 0 refuses none. The linker puts these in the place of malloc and realloc. */
static long refused_at;
static long requests;

void *__real_malloc(size_t size);
void *__real_realloc(void *block, size_t size);

static bool is_refused_now(void) {
    requests += 1;
    return requests == refused_at;
}

void *__wrap_malloc(size_t size) { return is_refused_now() ? NULL : __real_malloc(size); }

void *__wrap_realloc(void *block, size_t size) { return is_refused_now() ? NULL : __real_realloc(block, size); }

static void wrong(const char *what, int code) {
    fprintf(stderr, "typed: %s: %d (%s)\n", what, code, yuz_text(code));
    exit(1);
}

static void told_so(const char *what, int code, int wanted) {
    if (code != wanted) wrong(what, code);
}

static void done(const char *what, int code) { told_so(what, code, YUZ_DONE); }

/* What a line is answered, without its line feed. */
static void expect_line(yuz_pool *pool, const char *line, const char *wanted) {
    char text[4096];
    size_t size = 0, count = 0;
    uint32_t refusal = 0;
    done(line, yuz_line(pool, line, strlen(line), &refusal, &size));
    done(line, yuz_reply(pool, 0, text, sizeof text, &count));
    if (count != size || size != strlen(wanted) + 1 || memcmp(text, wanted, size - 1) != 0) {
        fprintf(stderr, "typed: %s: %.*swanted %s\n", line, (int)count, text, wanted);
        exit(1);
    }
}

static void expect_number(yuz_pool *pool, const char *line, uint64_t value) {
    char wanted[32];
    snprintf(wanted, sizeof wanted, "%" PRIu64, value);
    expect_line(pool, line, wanted);
}

static void write_block(yuz_pool *pool, const char *name, uint32_t object, uint32_t number, int byte) {
    uint8_t block[YUZ_BLOCK_SIZE];
    memset(block, byte, sizeof block);
    done("write", yuz_write(pool, name, strlen(name), object, number, block, sizeof block));
}

/* A pool with p/a, p/a@s and p/a@t, and a clone p/c of p/a@s. */
static void prepare(yuz_pool *pool) {
    uint64_t group;
    done("create", yuz_create(pool, 1, 1000));
    done("create_file_system", yuz_create_file_system(pool, NAME("p/a")));
    write_block(pool, "p/a", 0, 0, 97);
    done("snapshot", yuz_snapshot(pool, NAME("p/a@s"), false));
    write_block(pool, "p/a", 0, 1, 98);
    done("punch", yuz_punch(pool, NAME("p/a"), 0, 0));
    done("snapshot", yuz_snapshot(pool, NAME("p/a@t"), false));
    done("clone", yuz_clone(pool, NAME("p/a@s"), NAME("p/c")));
    done("sync", yuz_sync(pool, &group));
}

/* Requests that change file systems and snapshots. */
static void try_datasets(void) {
    yuz_pool pool = YUZ_NO_POOL;
    prepare(&pool);
    expect_line(&pool, "list", "p p/a p/a@s p/a@t p/c");
    expect_line(&pool, "get origin p/c", "p/a@s");
    told_so("create twice", yuz_create_file_system(&pool, NAME("p/a")), YUZ_EXISTS);
    told_so("destroy with a clone", yuz_destroy(&pool, NAME("p/a@s"), false, false), YUZ_HAS_CLONES);
    done("destroy deferred", yuz_destroy(&pool, NAME("p/a@s"), false, true));
    expect_line(&pool, "get defer_destroy p/a@s", "on");
    done("promote", yuz_promote(&pool, NAME("p/c")));
    expect_line(&pool, "list", "p p/a p/a@t p/c p/c@s");
    done("bookmark", yuz_bookmark(&pool, NAME("p/a@t"), NAME("p/a#m")));
    done("hold", yuz_hold(&pool, NAME("kept"), NAME("p/a@t")));
    told_so("destroy with a tag", yuz_destroy(&pool, NAME("p/a@t"), false, false), YUZ_BUSY);
    expect_line(&pool, "holds p/a@t", "kept");
    done("release", yuz_release(&pool, NAME("kept"), NAME("p/a@t")));
    expect_line(&pool, "holds p/a@t", "-");
    write_block(&pool, "p/a", 1, 5, 99);
    done("rollback", yuz_rollback(&pool, NAME("p/a@t"), true));
    expect_line(&pool, "read p/a 1 5", "hole");
    told_so("bookmark stays", yuz_rollback(&pool, NAME("p/c@s"), false), YUZ_DONE);
    write_block(&pool, "p/a", 1, 5, 99);
    done("free_object", yuz_free_object(&pool, NAME("p/a"), 1));
    expect_line(&pool, "read p/a 1 5", "hole");
    done("destroy", yuz_destroy(&pool, NAME("p/a"), true, false));
    expect_line(&pool, "list", "p p/c");
    yuz_free(&pool);
}

/* Destroys of several snapshots, all or none of them. */
static void try_destroys(void) {
    yuz_pool pool = YUZ_NO_POOL;
    prepare(&pool);
    done("snapshot", yuz_snapshot(&pool, NAME("p@u"), true));
    expect_line(&pool, "list", "p p@u p/a p/a@s p/a@t p/a@u p/c p/c@u");
    told_so("one has a clone", yuz_destroy_snapshots(&pool, NAME("p/a@t p/a@s"), false, false), YUZ_HAS_CLONES);
    done("hold", yuz_hold(&pool, NAME("kept"), NAME("p/c@u")));
    told_so("one has a tag", yuz_destroy_snapshots(&pool, NAME("p/a@s p/c@u p/a@t"), false, false), YUZ_BUSY);
    told_so("one below has a tag", yuz_destroy_snapshots(&pool, NAME("p/a@t p@u"), true, false), YUZ_BUSY);
    told_so("none is there", yuz_destroy_snapshots(&pool, NAME("p/a@v p/d@s"), false, false), YUZ_NO_DATASET);
    told_so("a file system", yuz_destroy_snapshots(&pool, NAME("p/a@t p/a"), false, false), YUZ_BAD_NAME);
    told_so("two spaces", yuz_destroy_snapshots(&pool, NAME("p/a@t  p/a@u"), false, false), YUZ_BAD_NAME);
    told_so("no name", yuz_destroy_snapshots(&pool, NULL, 0, false, false), YUZ_BAD_NAME);
    told_so("no text", yuz_destroy_snapshots(&pool, NULL, 1, false, false), YUZ_NULL);
    told_so("no handle", yuz_destroy_snapshots(NULL, NAME("p/a@t"), false, false), YUZ_NULL);
    expect_line(&pool, "list", "p p@u p/a p/a@s p/a@t p/a@u p/c p/c@u");
    done("destroy_snapshots", yuz_destroy_snapshots(&pool, NAME("p/a@u p/a@v p/a@t p/a@u"), false, false));
    expect_line(&pool, "list", "p p@u p/a p/a@s p/c p/c@u");
    done("destroy_snapshots deferred", yuz_destroy_snapshots(&pool, NAME("p@u p/a@s"), true, true));
    expect_line(&pool, "list", "p p/a p/a@s p/c p/c@u");
    expect_line(&pool, "get defer_destroy p/a@s", "on");
    expect_line(&pool, "get defer_destroy p/c@u", "on");
    done("release", yuz_release(&pool, NAME("kept"), NAME("p/c@u")));
    done("destroy", yuz_destroy(&pool, NAME("p/c"), false, false));
    expect_line(&pool, "list", "p p/a");
    yuz_free(&pool);
}

/* A rename takes all below the file system with it. */
static void try_renames(void) {
    yuz_pool pool = YUZ_NO_POOL;
    uint64_t view = 0, guid = 0, renamed = 0;
    prepare(&pool);
    done("bookmark", yuz_bookmark(&pool, NAME("p/a@t"), NAME("p/a#m")));
    done("create_file_system", yuz_create_file_system(&pool, NAME("p/a/x")));
    write_block(&pool, "p/a/x", 0, 0, 99);
    done("snapshot", yuz_snapshot(&pool, NAME("p/a/x@u"), false));
    done("hold", yuz_hold(&pool, NAME("kept"), NAME("p/a@t")));
    done("set", yuz_set(&pool, NAME("p/a"), YUZ_LIMIT_QUOTA, 102400));
    done("open_view", yuz_open_view(&pool, NAME("p/a/x@u"), &view));
    done("get", yuz_get(&pool, NAME("p/a@t"), YUZ_GUID, &guid));
    done("rename", yuz_rename(&pool, NAME("p/a"), NAME("p/d")));
    expect_line(&pool, "list", "p p/c p/d p/d@s p/d@t p/d#m p/d/x p/d/x@u");
    expect_line(&pool, "get origin p/c", "p/d@s");
    expect_line(&pool, "get clones p/d@s", "p/c");
    expect_line(&pool, "get quota p/d", "102400");
    expect_line(&pool, "holds p/d@t", "kept");
    expect_line(&pool, "read p/d 0 0", "hole");
    done("get", yuz_get(&pool, NAME("p/d@t"), YUZ_GUID, &renamed));
    if (renamed != guid) wrong("another guid", 0);
    told_so("destroy with a view", yuz_destroy(&pool, NAME("p/d/x@u"), false, false), YUZ_BUSY);
    done("close_view", yuz_close_view(&pool, view));
    told_so("the old name", yuz_punch(&pool, NAME("p/a"), 0, 0), YUZ_NO_DATASET);
    done("rename under its clone", yuz_rename(&pool, NAME("p/d"), NAME("p/c/d")));
    done("rename of the clone", yuz_rename(&pool, NAME("p/c"), NAME("p/a")));
    expect_line(&pool, "list", "p p/a p/a/d p/a/d@s p/a/d@t p/a/d#m p/a/d/x p/a/d/x@u");
    expect_line(&pool, "get origin p/a", "p/a/d@s");
    done("abandon", yuz_abandon(&pool));
    expect_line(&pool, "list", "p p/a p/a@s p/a@t p/c");
    yuz_free(&pool);
}

/* What refuses a rename. */
static void try_refused_renames(void) {
    yuz_pool pool = YUZ_NO_POOL;
    char name[YUZ_NAME_SIZE];
    memset(name, 'l', sizeof name);
    memcpy(name, "p/", 2);
    prepare(&pool);
    done("create_file_system", yuz_create_file_system(&pool, NAME("p/a/x")));
    told_so("no such file system", yuz_rename(&pool, NAME("p/b"), NAME("p/c")), YUZ_NO_DATASET);
    told_so("the root", yuz_rename(&pool, NAME("p"), NAME("p/c")), YUZ_IS_ROOT);
    told_so("a name that is taken", yuz_rename(&pool, NAME("p/a"), NAME("p/c")), YUZ_EXISTS);
    told_so("its own name", yuz_rename(&pool, NAME("p/a"), NAME("p/a")), YUZ_EXISTS);
    told_so("its child's name", yuz_rename(&pool, NAME("p/a"), NAME("p/a/x")), YUZ_EXISTS);
    told_so("no parent", yuz_rename(&pool, NAME("p/a"), NAME("p/b/a")), YUZ_NO_PARENT);
    told_so("no parent below itself", yuz_rename(&pool, NAME("p/a"), NAME("p/a/b/a")), YUZ_NO_PARENT);
    told_so("a name below itself", yuz_rename(&pool, NAME("p/a"), NAME("p/a/y")), YUZ_BAD_NAME);
    told_so("a name below its child", yuz_rename(&pool, NAME("p/a"), NAME("p/a/x/y")), YUZ_BAD_NAME);
    told_so("a snapshot", yuz_rename(&pool, NAME("p/a@s"), NAME("p/a@v")), YUZ_BAD_NAME);
    told_so("a snapshot's name", yuz_rename(&pool, NAME("p/a"), NAME("p/b@s")), YUZ_BAD_NAME);
    told_so("no new name", yuz_rename(&pool, NAME("p/a"), NULL, 0), YUZ_BAD_NAME);
    told_so("a long name of a snapshot", yuz_rename(&pool, NAME("p/a"), name, 254), YUZ_BAD_NAME);
    told_so("no text", yuz_rename(&pool, NULL, 1, NAME("p/b")), YUZ_NULL);
    told_so("no new text", yuz_rename(&pool, NAME("p/a"), NULL, 1), YUZ_NULL);
    told_so("no handle", yuz_rename(NULL, NAME("p/a"), NAME("p/b")), YUZ_NULL);
    expect_line(&pool, "list", "p p/a p/a@s p/a@t p/a/x p/c");
    done("the longest name", yuz_rename(&pool, NAME("p/a"), name, 253));
    yuz_free(&pool);
    told_so("no pool", yuz_rename(&pool, NAME("p/a"), NAME("p/b")), YUZ_POOL_MISSING);
}

/* A rename asks the limits above the new name. The first block of a file system takes six blocks. */
static void try_renames_within_limits(void) {
    yuz_pool pool = YUZ_NO_POOL;
    prepare(&pool);
    done("create_file_system", yuz_create_file_system(&pool, NAME("p/a/x")));
    done("create_file_system", yuz_create_file_system(&pool, NAME("p/q")));
    write_block(&pool, "p/a/x", 0, 0, 99);
    done("set", yuz_set(&pool, NAME("p/q"), YUZ_LIMIT_QUOTA, 5 * YUZ_BLOCK_SIZE));
    done("set", yuz_set(&pool, NAME("p/a"), YUZ_LIMIT_RESERVATION, 995 * YUZ_BLOCK_SIZE));
    told_so("past a quota", yuz_rename(&pool, NAME("p/a/x"), NAME("p/q/x")), YUZ_QUOTA);
    told_so("out of a reservation", yuz_rename(&pool, NAME("p/a/x"), NAME("p/x")), YUZ_NO_SPACE);
    done("set", yuz_set(&pool, NAME("p/a"), YUZ_LIMIT_RESERVATION, 994 * YUZ_BLOCK_SIZE));
    done("rename", yuz_rename(&pool, NAME("p/a/x"), NAME("p/x")));
    expect_line(&pool, "get available p", "0");
    yuz_free(&pool);
}

/* A pool with p/a, p/a@s, p/a@t, p/a/x without snapshots, p/a/x/y, p/a/x/y@s, and a clone p/c of p/a@s with p/c@s. */
static void prepare_below(yuz_pool *pool) {
    prepare(pool);
    done("create_file_system", yuz_create_file_system(pool, NAME("p/a/x")));
    done("create_file_system", yuz_create_file_system(pool, NAME("p/a/x/y")));
    write_block(pool, "p/a/x/y", 0, 0, 99);
    done("snapshot", yuz_snapshot(pool, NAME("p/a/x/y@s"), false));
    done("snapshot", yuz_snapshot(pool, NAME("p/c@s"), false));
}

/* A rename of a snapshot changes its name alone, and with `recursive` the names of those below. */
static void try_renames_of_snapshots(void) {
    yuz_pool pool = YUZ_NO_POOL;
    uint64_t view = 0, guid = 0, renamed = 0;
    prepare_below(&pool);
    done("hold", yuz_hold(&pool, NAME("kept"), NAME("p/a@s")));
    done("bookmark", yuz_bookmark(&pool, NAME("p/a@s"), NAME("p/a#s")));
    done("get", yuz_get(&pool, NAME("p/a@s"), YUZ_GUID, &guid));
    done("rename_snapshot", yuz_rename_snapshot(&pool, NAME("p/a@s"), NAME("u"), false));
    expect_line(&pool, "list", "p p/a p/a@u p/a@t p/a#s p/a/x p/a/x/y p/a/x/y@s p/c p/c@s");
    expect_line(&pool, "holds p/a@u", "kept");
    expect_line(&pool, "get origin p/c", "p/a@u");
    expect_line(&pool, "get clones p/a@u", "p/c");
    expect_line(&pool, "read p/a@u 0 1", "hole");
    done("get", yuz_get(&pool, NAME("p/a@u"), YUZ_GUID, &renamed));
    if (renamed != guid) wrong("another guid", 0);
    told_so("the old name", yuz_hold(&pool, NAME("kept"), NAME("p/a@s")), YUZ_NO_DATASET);
    done("rename_snapshot back", yuz_rename_snapshot(&pool, NAME("p/a@u"), NAME("s"), true));
    done("rename_snapshot below", yuz_rename_snapshot(&pool, NAME("p/a@s"), NAME("v"), true));
    expect_line(&pool, "list", "p p/a p/a@v p/a@t p/a#s p/a/x p/a/x/y p/a/x/y@v p/c p/c@s");
    expect_line(&pool, "holds p/a@v", "kept");
    expect_line(&pool, "get origin p/c", "p/a@v");
    done("open_view", yuz_open_view(&pool, NAME("p/a@t"), &view));
    done("beside a view", yuz_rename_snapshot(&pool, NAME("p/a@v"), NAME("w"), true));
    expect_line(&pool, "list", "p p/a p/a@w p/a@t p/a#s p/a/x p/a/x/y p/a/x/y@w p/c p/c@s");
    done("close_view", yuz_close_view(&pool, view));
    done("abandon", yuz_abandon(&pool));
    expect_line(&pool, "list", "p p/a p/a@s p/a@t p/c");
    yuz_free(&pool);
}

/* What refuses a rename of a snapshot. */
static void try_refused_renames_of_snapshots(void) {
    yuz_pool pool = YUZ_NO_POOL;
    uint64_t view = 0;
    char name[YUZ_NAME_SIZE];
    memset(name, 'l', sizeof name);
    prepare_below(&pool);
    done("snapshot", yuz_snapshot(&pool, NAME("p/a/x/y@w"), false));
    done("open_view", yuz_open_view(&pool, NAME("p/a/x/y@s"), &view));
    told_so("no such snapshot", yuz_rename_snapshot(&pool, NAME("p/a@u"), NAME("v"), false), YUZ_NO_DATASET);
    told_so("no such file system", yuz_rename_snapshot(&pool, NAME("p/b@s"), NAME("v"), false), YUZ_NO_DATASET);
    told_so("none but below", yuz_rename_snapshot(&pool, NAME("p/a/x@s"), NAME("v"), true), YUZ_NO_DATASET);
    told_so("a name that is taken", yuz_rename_snapshot(&pool, NAME("p/a@s"), NAME("t"), false), YUZ_EXISTS);
    told_so("its own name", yuz_rename_snapshot(&pool, NAME("p/a@s"), NAME("s"), false), YUZ_EXISTS);
    told_so("a name that is taken below", yuz_rename_snapshot(&pool, NAME("p/a@s"), NAME("w"), true), YUZ_EXISTS);
    told_so("a view", yuz_rename_snapshot(&pool, NAME("p/a/x/y@s"), NAME("v"), false), YUZ_BUSY);
    told_so("a view below", yuz_rename_snapshot(&pool, NAME("p/a@s"), NAME("v"), true), YUZ_BUSY);
    told_so("a file system", yuz_rename_snapshot(&pool, NAME("p/a"), NAME("v"), false), YUZ_BAD_NAME);
    told_so("a bookmark", yuz_rename_snapshot(&pool, NAME("p/a#s"), NAME("v"), false), YUZ_BAD_NAME);
    told_so("a whole new name", yuz_rename_snapshot(&pool, NAME("p/a@s"), NAME("p/a@v"), false), YUZ_BAD_NAME);
    told_so("no name", yuz_rename_snapshot(&pool, NULL, 0, NAME("v"), false), YUZ_BAD_NAME);
    told_so("no new name", yuz_rename_snapshot(&pool, NAME("p/a@s"), NULL, 0, false), YUZ_BAD_NAME);
    told_so("a long name", yuz_rename_snapshot(&pool, NAME("p/a@s"), name, 252, false), YUZ_BAD_NAME);
    told_so("a long name below", yuz_rename_snapshot(&pool, NAME("p/a@s"), name, 248, true), YUZ_BAD_NAME);
    told_so("no text", yuz_rename_snapshot(&pool, NULL, 1, NAME("v"), false), YUZ_NULL);
    told_so("no new text", yuz_rename_snapshot(&pool, NAME("p/a@s"), NULL, 1, false), YUZ_NULL);
    told_so("no handle", yuz_rename_snapshot(NULL, NAME("p/a@s"), NAME("v"), false), YUZ_NULL);
    expect_line(&pool, "list", "p p/a p/a@s p/a@t p/a/x p/a/x/y p/a/x/y@s p/a/x/y@w p/c p/c@s");
    done("close_view", yuz_close_view(&pool, view));
    done("the longest name below", yuz_rename_snapshot(&pool, NAME("p/a@s"), name, 247, true));
    done("the longest name", yuz_rename_snapshot(&pool, NAME("p/a@t"), name, 251, false));
    yuz_free(&pool);
    told_so("no pool", yuz_rename_snapshot(&pool, NAME("p/a@s"), NAME("v"), false), YUZ_POOL_MISSING);
}

/* Limits, and numbers of datasets and of the pool. */
static void try_numbers(void) {
    static const char *const words[] = {"pget size", "pget allocated", "pget free", "pget freeing", "pget waiting", "pget group"};
    yuz_pool pool = YUZ_NO_POOL;
    uint64_t value = 0;
    prepare(&pool);
    done("set", yuz_set(&pool, NAME("p/a"), YUZ_LIMIT_QUOTA, 102400));
    done("set", yuz_set(&pool, NAME("p/a"), YUZ_LIMIT_REF_QUOTA, 51200));
    done("set", yuz_set(&pool, NAME("p/a"), YUZ_LIMIT_RESERVATION, 20480));
    done("set", yuz_set(&pool, NAME("p/a"), YUZ_LIMIT_REF_RESERVATION, 10240));
    expect_line(&pool, "get quota p/a", "102400");
    expect_line(&pool, "get refquota p/a", "51200");
    expect_line(&pool, "get reservation p/a", "20480");
    expect_line(&pool, "get refreservation p/a", "10240");
    done("set none", yuz_set(&pool, NAME("p/a"), YUZ_LIMIT_QUOTA, 0));
    expect_line(&pool, "get quota p/a", "0");
    told_so("an odd amount", yuz_set(&pool, NAME("p/a"), YUZ_LIMIT_QUOTA, 1), YUZ_BAD_AMOUNT);
    told_so("a great amount", yuz_set(&pool, NAME("p/a"), YUZ_LIMIT_QUOTA, ((uint64_t)1 << 49) + 512), YUZ_BAD_AMOUNT);
    told_so("no limit", yuz_set(&pool, NAME("p/a"), 4, 512), YUZ_NO_PROPERTY);
    for (uint32_t property = YUZ_POOL_SIZE; property <= YUZ_POOL_GROUP; property++) {
        done(words[property], yuz_pool_get(&pool, property, &value));
        expect_number(&pool, words[property], value);
    }
    told_so("no pool property", yuz_pool_get(&pool, 6, &value), YUZ_NO_PROPERTY);
    done("written_since", yuz_written_since(&pool, NAME("p/a@t"), NAME("p/a@s"), &value));
    expect_number(&pool, "get written@s p/a@t", value);
    if (value == 0) wrong("nothing was written", 0);
    done("destroy", yuz_destroy(&pool, NAME("p/c"), true, false));
    done("would_free", yuz_would_free(&pool, NAME("p/a"), NAME("s"), NAME("s"), &value));
    expect_number(&pool, "wouldfree p/a s s", value);
    if (value == 0) wrong("nothing would be freed", 0);
    yuz_free(&pool);
}

static void try_views(void) {
    yuz_pool pool = YUZ_NO_POOL;
    uint64_t view = 0;
    prepare(&pool);
    done("open_view", yuz_open_view(&pool, NAME("p/a@t"), &view));
    told_so("a number of a view", (int)view, 1);
    told_so("destroy with a view", yuz_destroy(&pool, NAME("p/a@t"), false, false), YUZ_BUSY);
    done("close_view", yuz_close_view(&pool, view));
    told_so("close_view twice", yuz_close_view(&pool, view), YUZ_NO_VIEW);
    done("destroy", yuz_destroy(&pool, NAME("p/a@t"), false, false));
    yuz_free(&pool);
}

/* The names of a list are those of the line `list`, and each entry's numbers those of lines. */
static void try_lists(void) {
    static const char *const names[] = {"p", "p/a", "p/a@s", "p/a@t", "p/a#m", "p/c"};
    static const enum yuz_kind kinds[] = {YUZ_FILE_SYSTEM, YUZ_FILE_SYSTEM, YUZ_SNAPSHOT, YUZ_SNAPSHOT, YUZ_BOOKMARK, YUZ_FILE_SYSTEM};
    yuz_pool pool = YUZ_NO_POOL;
    char name[YUZ_NAME_SIZE], line[300];
    size_t count = 0, size = 0;
    prepare(&pool);
    done("bookmark", yuz_bookmark(&pool, NAME("p/a@t"), NAME("p/a#m")));
    done("list", yuz_list(&pool, &count));
    if (count != 6) wrong("a list of another length", (int)count);
    for (size_t at = 0; at < count; at++) {
        yuz_entry_record entry;
        done("entry", yuz_entry(&pool, at, name, &size, &entry));
        if (size != strlen(names[at]) || memcmp(name, names[at], size) != 0 || entry.kind != kinds[at]) wrong(names[at], (int)at);
        if (entry.kind != YUZ_FILE_SYSTEM) {
            snprintf(line, sizeof line, "get guid %s", names[at]);
            expect_number(&pool, line, entry.guid);
            snprintf(line, sizeof line, "get createtxg %s", names[at]);
            expect_number(&pool, line, entry.group);
        }
        if (entry.kind != YUZ_BOOKMARK) {
            snprintf(line, sizeof line, "get used %s", names[at]);
            expect_number(&pool, line, entry.used);
            snprintf(line, sizeof line, "get referenced %s", names[at]);
            expect_number(&pool, line, entry.referenced);
        }
    }
    done("name", yuz_name(&pool, 2, name, 3, &size));
    if (size != 5 || memcmp(name, "p/a", 3) != 0) wrong("the front of a name", (int)size);
    told_so("past the last name", yuz_name(&pool, 6, name, sizeof name, &size), YUZ_NO_ENTRY);
    done("hold", yuz_hold(&pool, NAME("one"), NAME("p/a@t")));
    done("hold", yuz_hold(&pool, NAME("two"), NAME("p/a@t")));
    done("holds", yuz_holds(&pool, NAME("p/a@t"), &count));
    done("name", yuz_name(&pool, 1, name, sizeof name, &size));
    if (count != 2 || size != 3 || memcmp(name, "two", 3) != 0) wrong("the second tag", (int)count);
    done("forget", yuz_forget(&pool));
    told_so("no list", yuz_name(&pool, 0, name, sizeof name, &size), YUZ_NO_ENTRY);
    yuz_free(&pool);
}

/* A stream in memory, written by a sink and read by a source. */
struct kept {
    uint8_t bytes[65536];
    size_t length, at;
};

static int keep(void *context, const uint8_t *bytes, size_t length) {
    struct kept *kept = context;
    if (length > sizeof kept->bytes - kept->length) return 77;
    memcpy(kept->bytes + kept->length, bytes, length);
    kept->length += length;
    return 0;
}

static ptrdiff_t give(void *context, uint8_t *buffer, size_t length) {
    struct kept *kept = context;
    size_t left = kept->length - kept->at, count = left < length ? left : length;
    count = count < 1000 ? count : 1000;
    memcpy(buffer, kept->bytes + kept->at, count);
    kept->at += count;
    return (ptrdiff_t)count;
}

static ptrdiff_t fail(void *context, uint8_t *buffer, size_t length) {
    (void)context, (void)buffer, (void)length;
    return -1;
}

static int stop(void *context, const uint8_t *bytes, size_t length) {
    (void)context, (void)bytes, (void)length;
    return 42;
}

struct changed {
    uint64_t written, holes;
    bool is_first_hole, is_second_written;
};

static int count_change(void *context, uint32_t object, uint32_t block, uint32_t count, const uint8_t *bytes) {
    struct changed *changed = context;
    if (bytes == NULL) changed->holes += count;
    else changed->written += count;
    if (object == 0 && block == 0 && bytes == NULL) changed->is_first_hole = true;
    if (object == 0 && block == 1 && bytes != NULL && bytes[0] == 98) changed->is_second_written = true;
    return 0;
}

static void try_streams(void) {
    yuz_pool pool = YUZ_NO_POOL, backup = YUZ_NO_POOL;
    static struct kept kept;
    struct changed changed = {0};
    prepare(&pool);
    done("create", yuz_create(&backup, 2, 1000));
    done("send_to", yuz_send_to(&pool, NAME("p/a@s"), NULL, 0, keep, &kept));
    told_so("a sink that stops", yuz_send_to(&pool, NAME("p/a@s"), NULL, 0, stop, NULL), 42);
    told_so("a source that fails", yuz_receive_from(&backup, NAME("p/a@s"), fail, NULL, YUZ_RECEIVE_PLAIN, NULL, 0), YUZ_SOURCE_FAILED);
    done("receive_from", yuz_receive_from(&backup, NAME("p/a@s"), give, &kept, YUZ_RECEIVE_PLAIN, NULL, 0));
    expect_line(&backup, "list", "p p/a p/a@s");
    done("diff", yuz_diff(&pool, NAME("p/a@t"), NAME("p/a@s"), count_change, &changed));
    if (changed.written != 1 || !changed.is_second_written || !changed.is_first_hole) wrong("the difference", (int)changed.written);
    memset(&changed, 0, sizeof changed);
    done("diff in full", yuz_diff(&pool, NAME("p/a@s"), NULL, 0, count_change, &changed));
    if (changed.written != 1 || changed.written + changed.holes != 256 * 4096) wrong("all blocks", (int)changed.holes);
    yuz_free(&pool);
    yuz_free(&backup);
}

static int received(yuz_pool *pool, const char *name, const struct kept *stream, enum yuz_receiving mode, const char *origin) {
    return yuz_receive(pool, name, strlen(name), stream->bytes, stream->length, mode, origin, strlen(origin));
}

/* A receive past a newer snapshot, as a clone, and in the place of a file system. */
static void try_receives(void) {
    yuz_pool pool = YUZ_NO_POOL, backup = YUZ_NO_POOL;
    static struct kept full, next;
    prepare(&pool);
    done("create", yuz_create(&backup, 3, 1000));
    done("send_to", yuz_send_to(&pool, NAME("p/a@s"), NULL, 0, keep, &full));
    done("send_to", yuz_send_to(&pool, NAME("p/a@t"), NAME("p/a@s"), keep, &next));
    done("receive", received(&backup, "p/a@s", &full, YUZ_RECEIVE_PLAIN, ""));
    done("snapshot", yuz_snapshot(&backup, NAME("p/a@newer"), false));
    told_so("a receive back", received(&backup, "p/a@t", &next, YUZ_RECEIVE_BACK, ""), YUZ_WRONG_SOURCE);
    done("a receive past", received(&backup, "p/a@t", &next, YUZ_RECEIVE_PAST, ""));
    expect_line(&backup, "list", "p p/a p/a@s p/a@t");
    told_so("of another origin", received(&backup, "p/b@t", &next, YUZ_RECEIVE_ORIGIN, "p/a@t"), YUZ_WRONG_SOURCE);
    told_so("of no origin", received(&backup, "p/b@t", &next, YUZ_RECEIVE_ORIGIN, ""), YUZ_BAD_NAME);
    done("a receive as a clone", received(&backup, "p/b@t", &next, YUZ_RECEIVE_ORIGIN, "p/a@s"));
    expect_line(&backup, "get origin p/b", "p/a@s");
    told_so("a clone replaced", received(&backup, "p/b@s", &full, YUZ_RECEIVE_REPLACE, ""), YUZ_EXISTS);
    done("the root replaced", received(&backup, "p@s", &full, YUZ_RECEIVE_REPLACE, ""));
    expect_line(&backup, "list", "p p@s p/a p/a@s p/a@t p/b p/b@t");
    told_so("no such mode", received(&backup, "p/d@s", &full, (enum yuz_receiving)5, ""), YUZ_NO_PROPERTY);
    yuz_free(&pool);
    yuz_free(&backup);
}

static int do_create(yuz_pool *pool) { return yuz_create_file_system(pool, NAME("p/b")); }
static int do_clone(yuz_pool *pool) { return yuz_clone(pool, NAME("p/a@t"), NAME("p/d")); }
static int do_destroy(yuz_pool *pool) { return yuz_destroy(pool, NAME("p/c"), true, false); }
static int do_destroys(yuz_pool *pool) { return yuz_destroy_snapshots(pool, NAME("p/a@s p/a@t"), false, true); }
static int do_promote(yuz_pool *pool) { return yuz_promote(pool, NAME("p/c")); }
static int do_rename(yuz_pool *pool) { return yuz_rename(pool, NAME("p/a"), NAME("p/c/a")); }
static int do_rename_snapshot(yuz_pool *pool) { return yuz_rename_snapshot(pool, NAME("p/a@s"), NAME("u"), true); }
static int do_rollback(yuz_pool *pool) { return yuz_rollback(pool, NAME("p/a@t"), false); }
static int do_bookmark(yuz_pool *pool) { return yuz_bookmark(pool, NAME("p/a@t"), NAME("p/a#m")); }
static int do_hold(yuz_pool *pool) { return yuz_hold(pool, NAME("kept"), NAME("p/a@t")); }
static int do_set(yuz_pool *pool) { return yuz_set(pool, NAME("p/a"), YUZ_LIMIT_QUOTA, 102400); }
static int do_free_object(yuz_pool *pool) { return yuz_free_object(pool, NAME("p/a"), 0); }

static int do_release(yuz_pool *pool) {
    int code = yuz_release(pool, NAME("none"), NAME("p/a@t"));
    return code == YUZ_NO_TAG ? YUZ_DONE : code;
}

static int do_view(yuz_pool *pool) {
    uint64_t view;
    return yuz_open_view(pool, NAME("p/a@t"), &view);
}

static int do_close(yuz_pool *pool) {
    int code = yuz_close_view(pool, 7);
    return code == YUZ_NO_VIEW ? YUZ_DONE : code;
}

static int do_written(yuz_pool *pool) {
    uint64_t value;
    return yuz_written_since(pool, NAME("p/a@t"), NAME("p/a@s"), &value);
}

static int do_would_free(yuz_pool *pool) {
    uint64_t value;
    return yuz_would_free(pool, NAME("p/a"), NAME("t"), NAME("t"), &value);
}

static int do_pool_get(yuz_pool *pool) {
    uint64_t value;
    return yuz_pool_get(pool, YUZ_POOL_FREE, &value);
}

static int do_list(yuz_pool *pool) {
    size_t count;
    return yuz_list(pool, &count);
}

static int do_holds(yuz_pool *pool) {
    size_t count;
    return yuz_holds(pool, NAME("p/a@t"), &count);
}

static int do_line(yuz_pool *pool) {
    size_t size;
    uint32_t refusal;
    return yuz_line(pool, NAME("create p/b"), &refusal, &size);
}

/* All that lines tell of a pool that the calls below change. */
static char *told(yuz_pool *pool) {
    static const char *const lines[] = {"list", "get used p", "get quota p/a", "get origin p/c", "get userrefs p/a@t", "pget group", "pget allocated", "pget freeing", "pget waiting", "read p/a 0 1"};
    char *text = NULL, piece[2048];
    size_t size, count;
    uint32_t refusal;
    FILE *out = open_memstream(&text, &size);
    for (size_t i = 0; i < sizeof lines / sizeof *lines; i++) {
        done(lines[i], yuz_line(pool, lines[i], strlen(lines[i]), &refusal, &size));
        done(lines[i], yuz_reply(pool, 0, piece, sizeof piece, &count));
        fwrite(piece, 1, count, out);
    }
    fclose(out);
    return text;
}

/* Refuses each request for memory of one call on such a pool, until it makes fewer. Says how many those are. */
static long refuse_each(const char *what, void (*begin)(yuz_pool *), int (*call)(yuz_pool *)) {
    for (long at = 1;; at++) {
        yuz_pool pool = YUZ_NO_POOL;
        begin(&pool);
        char *before = told(&pool);
        requests = 0;
        refused_at = at;
        int code = call(&pool);
        bool was_refused = requests >= at;
        refused_at = 0;
        /* Some growth can be done without. */
        if (code != YUZ_DONE && (code != YUZ_NO_MEMORY || !was_refused)) wrong(what, code);
        if (code == YUZ_NO_MEMORY) {
            char *after = told(&pool);
            if (strcmp(before, after) != 0) wrong("a refused call has changed something", (int)at);
            free(after);
            done(what, call(&pool));
        }
        free(before);
        yuz_free(&pool);
        if (!was_refused) return at - 1;
    }
}

int main(void) {
    static const struct {
        const char *what;
        int (*call)(yuz_pool *);
    } each[] = {{"create", do_create}, {"clone", do_clone}, {"destroy", do_destroy}, {"destroy_snapshots", do_destroys}, {"promote", do_promote}, {"rename", do_rename}, {"rename_snapshot", do_rename_snapshot}, {"rollback", do_rollback}, {"bookmark", do_bookmark}, {"hold", do_hold}, {"release", do_release}, {"set", do_set}, {"free_object", do_free_object}, {"open_view", do_view}, {"close_view", do_close}, {"written_since", do_written}, {"would_free", do_would_free}, {"pool_get", do_pool_get}, {"list", do_list}, {"holds", do_holds}, {"a line that changes", do_line}};
    try_datasets();
    try_destroys();
    try_renames();
    try_refused_renames();
    try_renames_within_limits();
    try_renames_of_snapshots();
    try_refused_renames_of_snapshots();
    try_numbers();
    try_views();
    try_lists();
    try_streams();
    try_receives();
    printf("typed: %s, each call tells what its line tells; refused requests for memory:", yuz_version());
    for (size_t i = 0; i < sizeof each / sizeof *each; i++) printf(" %s %ld", each[i].what, refuse_each(each[i].what, prepare, each[i].call));
    printf(" rename_snapshot of two %ld", refuse_each("rename_snapshot of two", prepare_below, do_rename_snapshot));
    printf("; nothing was changed\n");
    return 0;
}
