/* A host in C: each command tries one thing of the library, says what it saw, and ends with status 1 where that isn't what it should be.
 *
 *     host session SCRIPT REPLIES     answers the lines of a script, and compares the replies
 *     host calls                      makes each call of the library, and compares what it tells
 *     host writes COUNT               writes so many blocks of 512 bytes, and prints the seconds and the resident kilobytes before and after
 *     host apply COUNT                writes as many and does nothing else, as `workloads apply`: bench/hosts.py times it
 *     host streams                    sends a snapshot from one pool by pieces, and receives it in another
 *     host memory                     refuses each request for memory of each call in turn
 *     host mistakes                   makes each mistake that a call tells
 */
#include "yuzgont.h"

#include <inttypes.h>
#include <stdio.h>
#include <stdlib.h>
#include <string.h>
#include <time.h>
#include <unistd.h>

#define NAME(text) (text), (sizeof(text) - 1)

/* Which request for memory is refused: the first is 1, and 0 refuses none. The linker puts these in the place of malloc and realloc. */
static long refused_at;
static long requests;

void *__real_malloc(size_t size);
void *__real_realloc(void *block, size_t size);

static bool is_refused_now(void) {
    requests += 1;
    return requests == refused_at;
}

void *__wrap_malloc(size_t size) { return is_refused_now() ? NULL : __real_malloc(size); }

void *__wrap_realloc(void *block, size_t size) { return is_refused_now() ? NULL : __real_realloc(block, size); }

static void wrong(const char *what, int code) {
    fprintf(stderr, "host: %s: %d\n", what, code);
    exit(1);
}

static void done(const char *what, int code) {
    if (code != YUZ_DONE) wrong(what, code);
}

/* Appends the reply of a line to a file, read by pieces of eight bytes at first, which shows that none is lost. */
static void answer(yuz_pool *pool, const char *line, size_t length, FILE *out) {
    char piece[4096];
    size_t size = 0, count = 0;
    uint32_t refusal = 0;
    done(line, yuz_line(pool, line, length, &refusal, &size));
    for (size_t from = 0; from < size; from += count) {
        done("reply", yuz_reply(pool, from, piece, from == 0 ? 8 : sizeof piece, &count));
        if (count == 0) wrong("reply ended early", (int)from);
        fwrite(piece, 1, count, out);
    }
}

static char *whole_file(const char *path, size_t *size) {
    FILE *file = fopen(path, "rb");
    if (file == NULL) wrong(path, 0);
    char *text = NULL;
    FILE *copy = open_memstream(&text, size);
    for (int c = getc(file); c != EOF; c = getc(file)) putc(c, copy);
    fclose(file);
    fclose(copy);
    return text;
}

static int session(const char *script_path, const char *replies_path) {
    yuz_pool pool = YUZ_NO_POOL;
    size_t script_size, wanted_size, size;
    char *script = whole_file(script_path, &script_size);
    char *wanted = whole_file(replies_path, &wanted_size);
    char *replies = NULL;
    FILE *out = open_memstream(&replies, &size);
    done("create", yuz_create(&pool, 1, 1000));
    for (char *line = strtok(script, "\n"); line != NULL; line = strtok(NULL, "\n")) answer(&pool, line, strlen(line), out);
    fclose(out);
    yuz_free(&pool);
    bool is_same = size == wanted_size && memcmp(replies, wanted, size) == 0;
    printf("session %s: %zu bytes of replies, %s\n", script_path, size, is_same ? "as wanted" : "NOT AS WANTED");
    free(script);
    free(wanted);
    free(replies);
    return is_same ? 0 : 1;
}

static long resident_kilobytes(void) {
    long pages = 0;
    FILE *file = fopen("/proc/self/statm", "r");
    if (file == NULL || fscanf(file, "%*d %ld", &pages) != 1) wrong("statm", 0);
    fclose(file);
    return pages * (sysconf(_SC_PAGESIZE) / 1024);
}

static double now(void) {
    struct timespec time;
    clock_gettime(CLOCK_MONOTONIC, &time);
    return (double)time.tv_sec + (double)time.tv_nsec / 1e9;
}

/* The same writes as `workloads apply`: those with numbers next to each other are of blocks far apart. */
static void write_numbers(yuz_pool *pool, uint64_t from, uint64_t count) {
    uint8_t block[YUZ_BLOCK_SIZE];
    for (uint64_t number = from; number < from + count; number++) {
        uint32_t leaf = (uint32_t)(number * 7919 % 1048576);
        memset(block, (int)(number % 251), sizeof block);
        done("write", yuz_write(pool, NAME("p"), leaf / 4096, leaf % 4096, block, sizeof block));
    }
}

static int writes(uint64_t count) {
    yuz_pool pool = YUZ_NO_POOL;
    /* Under valgrind a pool has less room. */
    done("create", yuz_create(&pool, 1, count > 10000 ? 4194304 : 100000));
    double begin = now();
    write_numbers(&pool, 0, count);
    printf("writes: %llu of 512 bytes in %.3f s\n", (unsigned long long)count, now() - begin);
    /* The same blocks once more: whatever a request doesn't give back shows. A sync frees what they replaced. */
    uint64_t group;
    long before = 0;
    for (int round = 0; round < 3; round++) {
        if (round == 1) before = resident_kilobytes();
        for (uint64_t from = 0; from < count; from += 1000) {
            write_numbers(&pool, from, count - from < 1000 ? count - from : 1000);
            done("sync", yuz_sync(&pool, &group));
        }
    }
    long after = resident_kilobytes();
    yuz_free(&pool);
    printf("writes: %ld kB resident after as many more, %ld kB after twice as many again\n", before, after);
    /* Few writes show nothing: what is resident then is mostly the allocator's, or valgrind's. */
    return count <= 10000 || after <= before + before / 50 + 1024 ? 0 : 1;
}

static int apply(uint64_t count) {
    yuz_pool pool = YUZ_NO_POOL;
    done("create", yuz_create(&pool, 1, 4194304));
    write_numbers(&pool, 0, count);
    /* The pool isn't freed there either, since the program ends. */
    printf("%" PRIu64 "\n", count);
    return 0;
}

static uint8_t *whole_stream(yuz_pool *pool, size_t size) {
    uint8_t *bytes = malloc(size);
    size_t count = 0;
    for (size_t from = 0; from < size; from += count) {
        size_t room = size - from < 1000 ? size - from : 1000;
        done("stream", yuz_stream(pool, from, bytes + from, room, &count));
        if (count != room) wrong("stream ended early", (int)count);
    }
    done("stream", yuz_stream(pool, size, bytes, size, &count));
    if (count != 0) wrong("stream goes on past its end", (int)count);
    return bytes;
}

static void expect_first(yuz_pool *pool, const char *name, size_t length, uint8_t byte) {
    uint8_t block[YUZ_BLOCK_SIZE];
    bool is_hole = true;
    done("read", yuz_read(pool, name, length, 0, 0, block, sizeof block, &is_hole));
    if (is_hole || block[0] != byte || block[511] != byte) wrong("read another block", block[0]);
}

static void write_first(yuz_pool *pool, uint8_t byte) {
    uint8_t block[YUZ_BLOCK_SIZE];
    memset(block, byte, sizeof block);
    done("write", yuz_write(pool, NAME("p"), 0, 0, block, sizeof block));
}

static int streams(void) {
    yuz_pool live = YUZ_NO_POOL, backup = YUZ_NO_POOL;
    size_t full_size, next_size;
    done("create", yuz_create(&live, 1, 1000));
    done("create", yuz_create(&backup, 2, 1000));
    write_first(&live, 97);
    done("snapshot", yuz_snapshot(&live, NAME("p@monday"), false));
    done("send", yuz_send(&live, NAME("p@monday"), NULL, 0, &full_size));
    uint8_t *full = whole_stream(&live, full_size);
    write_first(&live, 98);
    done("snapshot", yuz_snapshot(&live, NAME("p@tuesday"), false));
    done("send", yuz_send(&live, NAME("p@tuesday"), NAME("p@monday"), &next_size));
    uint8_t *next = whole_stream(&live, next_size);
    int code = yuz_receive(&backup, NAME("p/copy@monday"), full, full_size - 1, YUZ_RECEIVE_PLAIN, NULL, 0);
    if (code != YUZ_BAD_STREAM) wrong("a cut stream", code);
    code = yuz_receive(&backup, NAME("p/copy@tuesday"), next, next_size, YUZ_RECEIVE_PLAIN, NULL, 0);
    if (code != YUZ_NO_DATASET) wrong("a stream onto nothing", code);
    done("receive", yuz_receive(&backup, NAME("p/copy@monday"), full, full_size, YUZ_RECEIVE_PLAIN, NULL, 0));
    expect_first(&backup, NAME("p/copy"), 97);
    done("receive", yuz_receive(&backup, NAME("p/copy@tuesday"), next, next_size, YUZ_RECEIVE_PLAIN, NULL, 0));
    expect_first(&backup, NAME("p/copy"), 98);
    expect_first(&backup, NAME("p/copy@monday"), 97);
    printf("streams: %zu bytes in full, %zu from the snapshot before it, received\n", full_size, next_size);
    free(full);
    free(next);
    done("forget", yuz_forget(&live));
    yuz_free(&live);
    yuz_free(&backup);
    return 0;
}

static char *reply_of(yuz_pool *pool, const char *line) {
    char *text = NULL;
    size_t size;
    FILE *out = open_memstream(&text, &size);
    answer(pool, line, strlen(line), out);
    fclose(out);
    return text;
}

static void expect_line(yuz_pool *pool, const char *line, const char *wanted) {
    char *text = reply_of(pool, line);
    if (strcmp(text, wanted) != 0) wrong(line, 0);
    free(text);
}

/* A hole is told as one, and read as zeros. */
static void expect_hole(yuz_pool *pool, uint32_t object, uint32_t number) {
    uint8_t block[YUZ_BLOCK_SIZE], zeros[YUZ_BLOCK_SIZE] = {0};
    bool is_hole = false;
    memset(block, 1, sizeof block);
    done("read", yuz_read(pool, NAME("p"), object, number, block, sizeof block, &is_hole));
    if (!is_hole || memcmp(block, zeros, sizeof zeros) != 0) wrong("read no hole", block[0]);
}

/* The property of each number is what a line tells of its name, `-` where the dataset has none. */
static void expect_properties(yuz_pool *pool, const char *name) {
    static const char *const words[] = {"used", "available", "referenced", "written", "usedbydataset", "usedbysnapshots", "usedbychildren", "usedbyrefreservation", "quota", "refquota", "reservation", "refreservation", "guid", "createtxg", "userrefs"};
    for (uint32_t property = YUZ_USED; property <= YUZ_USER_REFS; property++) {
        char line[100], told[100] = "-\n";
        uint64_t value = 0;
        int code = yuz_get(pool, name, strlen(name), property, &value);
        if (code == YUZ_DONE) snprintf(told, sizeof told, "%" PRIu64 "\n", value);
        else if (code != YUZ_NOT_APPLICABLE) wrong("get", code);
        snprintf(line, sizeof line, "get %s %s", words[property], name);
        expect_line(pool, line, told);
    }
}

/* Datasets whose properties differ from one another. */
static void expect_all_properties(yuz_pool *pool) {
    expect_line(pool, "create p/a", "ok\n");
    expect_line(pool, "set quota=102400 p", "ok\n");
    expect_line(pool, "set refquota=51200 p", "ok\n");
    expect_line(pool, "set reservation=20480 p", "ok\n");
    expect_line(pool, "set refreservation=10240 p", "ok\n");
    expect_line(pool, "set reservation=2048 p/a", "ok\n");
    expect_line(pool, "write p/a 0 0 61", "ok\n");
    done("snapshot", yuz_snapshot(pool, NAME("p@s"), true));
    expect_line(pool, "list", "p p@s p/a p/a@s\n");
    expect_line(pool, "hold kept p@s", "ok\n");
    write_first(pool, 98);
    expect_properties(pool, "p");
    expect_properties(pool, "p/a");
    expect_properties(pool, "p@s");
    expect_line(pool, "release kept p@s", "ok\n");
}

/* What a destroy lets go is freed by slices. */
static void expect_slices(yuz_pool *pool) {
    uint64_t taken = 0;
    expect_line(pool, "destroy p@s", "ok\n");
    done("slice", yuz_slice(pool, 1, &taken));
    if (taken != 1) wrong("a slice of one block", (int)taken);
    done("slice", yuz_slice(pool, 1000, &taken));
    if (taken == 0) wrong("nothing was left for a slice", 0);
    expect_line(pool, "pget freeing", "0\n");
    done("slice", yuz_slice(pool, 1000, &taken));
    if (taken != 0) wrong("a slice of nothing", (int)taken);
}

static void expect_forgotten(yuz_pool *pool) {
    uint8_t byte;
    size_t count = 1;
    done("forget", yuz_forget(pool));
    done("reply", yuz_reply(pool, 0, &byte, 1, &count));
    if (count != 0) wrong("a reply is kept", (int)count);
    count = 1;
    done("stream", yuz_stream(pool, 0, &byte, 1, &count));
    if (count != 0) wrong("a stream is kept", (int)count);
}

static int calls(void) {
    yuz_pool pool = YUZ_NO_POOL;
    uint64_t group = 0, next = 0;
    size_t size;
    done("create", yuz_create(&pool, 1, 1000));
    write_first(&pool, 97);
    expect_first(&pool, NAME("p"), 97);
    expect_hole(&pool, 0, 1);
    done("sync", yuz_sync(&pool, &group));
    done("punch", yuz_punch(&pool, NAME("p"), 0, 0));
    expect_hole(&pool, 0, 0);
    done("abandon", yuz_abandon(&pool));
    expect_first(&pool, NAME("p"), 97);
    done("sync", yuz_sync(&pool, &next));
    if (next != group + 1) wrong("the open group", (int)next);
    expect_all_properties(&pool);
    done("send", yuz_send(&pool, NAME("p@s"), NULL, 0, &size));
    uint8_t *bytes = whole_stream(&pool, size);
    done("receive", yuz_receive(&pool, NAME("p/copy@s"), bytes, size, YUZ_RECEIVE_PLAIN, NULL, 0));
    expect_first(&pool, NAME("p/copy"), 97);
    free(bytes);
    expect_slices(&pool);
    expect_forgotten(&pool);
    yuz_free(&pool);
    if (yuz_sync(&pool, &next) != YUZ_POOL_MISSING) wrong("free", 0);
    printf("calls: each tells what it should\n");
    return 0;
}

/* All that lines tell of a pool that the calls below change. */
static char *told(yuz_pool *pool) {
    static const char *const lines[] = {"list", "get used p", "get written p", "get userrefs p@s", "pget group", "pget allocated", "pget freeing", "pget waiting", "read p 0 0", "read p 0 1", "send p@s"};
    char *text = NULL;
    size_t size;
    FILE *out = open_memstream(&text, &size);
    for (size_t i = 0; i < sizeof lines / sizeof *lines; i++) answer(pool, lines[i], strlen(lines[i]), out);
    fclose(out);
    return text;
}

static uint8_t *sent;
static size_t sent_size;
static const uint8_t letters[YUZ_BLOCK_SIZE] = {97, 98, 99};

static int do_write(yuz_pool *pool) { return yuz_write(pool, NAME("p"), 0, 1, letters, sizeof letters); }
static int do_punch(yuz_pool *pool) { return yuz_punch(pool, NAME("p"), 0, 0); }
static int do_snapshot(yuz_pool *pool) { return yuz_snapshot(pool, NAME("p@t"), true); }
static int do_abandon(yuz_pool *pool) { return yuz_abandon(pool); }
static int do_receive(yuz_pool *pool) { return yuz_receive(pool, NAME("p/copy@s"), sent, sent_size, YUZ_RECEIVE_PLAIN, NULL, 0); }

static int do_sync(yuz_pool *pool) {
    uint64_t group;
    return yuz_sync(pool, &group);
}

static int do_slice(yuz_pool *pool) {
    uint64_t taken;
    return yuz_slice(pool, 3, &taken);
}

static int do_send(yuz_pool *pool) {
    size_t size;
    return yuz_send(pool, NAME("p@s"), NULL, 0, &size);
}

static int do_read(yuz_pool *pool) {
    uint8_t block[YUZ_BLOCK_SIZE];
    bool is_hole = false;
    return yuz_read(pool, NAME("p"), 0, 0, block, sizeof block, &is_hole);
}

static int do_get(yuz_pool *pool) {
    uint64_t value;
    return yuz_get(pool, NAME("p@s"), YUZ_USED, &value);
}

static int do_list(yuz_pool *pool) {
    size_t size;
    uint32_t refusal;
    return yuz_line(pool, NAME("list"), &refusal, &size);
}

/* A line that changes something: its refusal is told by its number. */
static int do_line(yuz_pool *pool) {
    size_t size = 0;
    uint32_t refusal = 0;
    int code = yuz_line(pool, NAME("create p/new"), &refusal, &size);
    return code == YUZ_DONE ? (int)refusal : code;
}

static int do_reply(yuz_pool *pool) {
    uint8_t byte;
    size_t count;
    return yuz_reply(pool, 0, &byte, 1, &count);
}

static int do_stream(yuz_pool *pool) {
    uint8_t byte;
    size_t count;
    return yuz_stream(pool, 0, &byte, 1, &count);
}

static int do_forget(yuz_pool *pool) { return yuz_forget(pool); }

static int do_free(yuz_pool *pool) {
    yuz_free(pool);
    return YUZ_DONE;
}

/* A pool with a synced snapshot, a newer write and something to be freed. */
static void prepare(yuz_pool *pool) {
    size_t size;
    uint64_t group;
    uint32_t refusal;
    done("create", yuz_create(pool, 1, 1000));
    write_first(pool, 97);
    done("snapshot", yuz_snapshot(pool, NAME("p@s"), false));
    done("snapshot", yuz_snapshot(pool, NAME("p@gone"), false));
    done("sync", yuz_sync(pool, &group));
    write_first(pool, 98);
    done("snapshot", yuz_snapshot(pool, NAME("p@later"), false));
    write_first(pool, 99);
    done("destroy", yuz_line(pool, NAME("destroy p@later"), &refusal, &size));
    if (refusal != 0) wrong("destroy", (int)refusal);
}

/* Refuses each request for memory of one call on such a pool, until it makes fewer. Says how many those are. */
static long refuse_each(const char *what, int (*call)(yuz_pool *)) {
    for (long at = 1;; at++) {
        yuz_pool pool = YUZ_NO_POOL;
        prepare(&pool);
        char *before = told(&pool);
        requests = 0;
        refused_at = at;
        int code = call(&pool);
        bool was_refused = requests >= at;
        refused_at = 0;
        if (!was_refused) {
            done(what, code);
            free(before);
            yuz_free(&pool);
            return at - 1;
        }
        /* Some growth can be done without. */
        if (code != YUZ_DONE && code != YUZ_NO_MEMORY) wrong(what, code);
        if (code == YUZ_NO_MEMORY) {
            char *after = told(&pool);
            if (strcmp(before, after) != 0) wrong("a refused call has changed something", (int)at);
            free(after);
            done(what, call(&pool));
        }
        free(before);
        yuz_free(&pool);
    }
}

static long refuse_create(void) {
    for (long at = 1;; at++) {
        yuz_pool pool = YUZ_NO_POOL;
        requests = 0;
        refused_at = at;
        int code = yuz_create(&pool, 1, 1000);
        bool was_refused = requests >= at;
        refused_at = 0;
        if (was_refused != (code == YUZ_NO_MEMORY)) wrong("create", code);
        yuz_free(&pool);
        if (!was_refused) return at - 1;
    }
}

static int memory(void) {
    static const struct {
        const char *what;
        int (*call)(yuz_pool *);
    } each[] = {{"write", do_write}, {"read", do_read}, {"punch", do_punch}, {"snapshot", do_snapshot}, {"sync", do_sync}, {"slice", do_slice}, {"abandon", do_abandon}, {"get", do_get}, {"send", do_send}, {"receive", do_receive}, {"list", do_list}, {"line", do_line}, {"reply", do_reply}, {"stream", do_stream}, {"forget", do_forget}, {"free", do_free}};
    yuz_pool pool = YUZ_NO_POOL;
    prepare(&pool);
    done("send", yuz_send(&pool, NAME("p@s"), NULL, 0, &sent_size));
    sent = whole_stream(&pool, sent_size);
    yuz_free(&pool);
    printf("memory: refused requests of create %ld", refuse_create());
    for (size_t i = 0; i < sizeof each / sizeof *each; i++) printf(", %s %ld", each[i].what, refuse_each(each[i].what, each[i].call));
    printf("; nothing was changed\n");
    free(sent);
    return 0;
}

static void told_so(const char *what, int code, int wanted) {
    if (code != wanted) wrong(what, code);
}

static int mistakes(void) {
    yuz_pool pool = YUZ_NO_POOL;
    uint8_t block[YUZ_BLOCK_SIZE] = {0};
    size_t size = 0;
    uint64_t value = 7;
    uint32_t refusal = 0;
    bool flag = false;
    told_so("no pool", yuz_sync(&pool, &value), YUZ_POOL_MISSING);
    told_so("no handle", yuz_sync(NULL, &value), YUZ_NULL);
    told_so("id 0", yuz_create(&pool, 0, 1000), YUZ_BAD_NAME);
    told_so("no blocks", yuz_create(&pool, 1, 0), YUZ_TOO_MANY);
    done("create", yuz_create(&pool, 1, 1000));
    told_so("a pool there", yuz_create(&pool, 1, 1000), YUZ_POOL_THERE);
    told_so("511 bytes", yuz_write(&pool, NAME("p"), 0, 0, block, 511), YUZ_BAD_LENGTH);
    told_so("a buffer of 511 bytes", yuz_read(&pool, NAME("p"), 0, 0, block, 511, &flag), YUZ_BAD_LENGTH);
    told_so("no bytes", yuz_write(&pool, NAME("p"), 0, 0, NULL, 512), YUZ_NULL);
    told_so("a length below 0", yuz_write(&pool, "p", (size_t)-1, 0, 0, block, 512), YUZ_NULL);
    told_so("no name", yuz_write(&pool, NULL, 0, 0, 0, block, 512), YUZ_BAD_NAME);
    told_so("no such name", yuz_write(&pool, NAME("p/a"), 0, 0, block, 512), YUZ_NO_DATASET);
    told_so("no such object", yuz_write(&pool, NAME("p"), 256, 0, block, 512), YUZ_BAD_KEY);
    told_so("no such property", yuz_get(&pool, NAME("p"), YUZ_USER_REFS + 1, &value), YUZ_NO_PROPERTY);
    told_so("not its property", yuz_get(&pool, NAME("p"), YUZ_GUID, &value), YUZ_NOT_APPLICABLE);
    told_so("a line that is none", yuz_line(&pool, NAME("nothing"), &refusal, &size), YUZ_DONE);
    if (refusal != YUZ_BAD_LINE || size != strlen("error 28 BadLine\n") || value != 7) wrong("a bad line", (int)size);
    yuz_free(&pool);
    yuz_free(&pool);
    yuz_free(NULL);
    printf("mistakes: each is told\n");
    return 0;
}

int main(int count, char **words) {
    if (count == 4 && strcmp(words[1], "session") == 0) return session(words[2], words[3]);
    if (count == 2 && strcmp(words[1], "calls") == 0) return calls();
    if (count == 3 && strcmp(words[1], "apply") == 0) return apply(strtoull(words[2], NULL, 10));
    if (count == 3 && strcmp(words[1], "writes") == 0) return writes(strtoull(words[2], NULL, 10));
    if (count == 2 && strcmp(words[1], "streams") == 0) return streams();
    if (count == 2 && strcmp(words[1], "memory") == 0) return memory();
    if (count == 2 && strcmp(words[1], "mistakes") == 0) return mistakes();
    fprintf(stderr, "usage: host session SCRIPT REPLIES | calls | writes COUNT | apply COUNT | streams | memory | mistakes\n");
    return 2;
}
