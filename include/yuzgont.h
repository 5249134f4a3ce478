/* Yuzgont for C: pools behind handles, over the static library `libyuzgont_c.a` (crate `yuzgont_c`). docs/EMBEDDING.md says what every host has
 * to know, docs/HOSTS_C.md how to build one and what is proved, docs/SPACE.md what the properties and limits are.
 *
 *     yuz_pool pool = YUZ_NO_POOL;
 *     int code = yuz_create(&pool, 1, 1000);
 *     if (code == YUZ_DONE) code = yuz_write(&pool, "p", 1, 0, 0, block, YUZ_BLOCK_SIZE);
 *     yuz_free(&pool);
 *
 * Each call answers with a number: YUZ_DONE, a refusal (1 to 30, docs/REFUSALS.md), or a negative number for what the caller did wrong. A
 * call that isn't YUZ_DONE has changed nothing of the pool, want of memory (YUZ_NO_MEMORY) included.
 *
 * What the caller owes:
 *   - A handle is YUZ_NO_POOL at first. Only these calls write it, and it is neither copied nor taken apart.
 *   - An id is never used for two pools, not even after a restart. A guid is the pool's id times 2^32 plus a counter. So a second pool of one id
 *     gives the guids of the first to other contents, and a backup then applies an increment to the wrong snapshot. No refusal tells this. Draw
 *     the id at random.
 *   - Calls on one handle come one after another; nothing here takes a lock. They may come from several threads, if what orders them orders
 *     memory too, as a lock does. Two handles have nothing in common, and may be used in two threads at once.
 *   - A result points to a valid value of its type before the call: a `bool` is false or true. So initialise results. A buffer may hold anything.
 *   - A buffer has as many bytes as its length says, and no buffer, handle or result of one call overlaps another that the call writes.
 *   - `malloc`, `realloc` and `free` come from one allocator, which aligns memory as C asks, for every object of its size. No call is made
 *     from a signal handler, or after `fork` in the child of a process with threads.
 */
#ifndef YUZGONT_H
#define YUZGONT_H

#include <stdbool.h>
#include <stddef.h>
#include <stdint.h>
#include <stdlib.h>
#include <string.h>

#ifdef __cplusplus
extern "C" {
#endif

#define YUZ_BLOCK_SIZE 512

/* Room for a name, which has at most 255 bytes. */
#define YUZ_NAME_SIZE 256

/* The version of this header, which `yuz_version` tells of the library that a host runs with where that is shared. */
#define YUZ_VERSION "0.1.0"

/* What a call answers. */
enum yuz_code {
    YUZ_DONE = 0,
    YUZ_BAD_NAME = 1,
    YUZ_NO_DATASET = 2,
    YUZ_EXISTS = 3,
    YUZ_NO_PARENT = 4,
    YUZ_BAD_KEY = 5,
    YUZ_READ_ONLY = 6,
    YUZ_NOT_SNAPSHOT = 7,
    YUZ_BUSY = 8,
    YUZ_HAS_CLONES = 9,
    YUZ_HAS_CHILDREN = 10,
    YUZ_NOT_NEWEST = 11,
    YUZ_NOT_CLONE = 12,
    YUZ_NAME_CLASH = 13,
    YUZ_TAG_EXISTS = 14,
    YUZ_NO_TAG = 15,
    YUZ_DEFERRED = 16,
    YUZ_NOT_ANCESTOR = 17,
    YUZ_QUOTA = 18,
    YUZ_REF_QUOTA = 19,
    YUZ_NO_SPACE = 20,
    YUZ_TOO_MANY = 21,
    YUZ_BAD_STREAM = 22,
    YUZ_WRONG_SOURCE = 23,
    YUZ_MODIFIED = 24,
    YUZ_NO_MEMORY = 25,
    YUZ_NO_VIEW = 26,
    YUZ_IS_ROOT = 27,
    YUZ_BAD_LINE = 28,
    YUZ_SESSION_FULL = 29,
    YUZ_TOO_MANY_SEATS = 30,
    YUZ_NULL = -1,          /* a pointer is null that may not be, or a length is past PTRDIFF_MAX */
    YUZ_POOL_MISSING = -2,  /* the handle has no pool */
    YUZ_POOL_THERE = -3,    /* the handle has a pool already */
    YUZ_BAD_LENGTH = -4,    /* a block isn't 512 bytes */
    YUZ_NO_PROPERTY = -5,   /* no property, limit or mode of a receive has this number */
    YUZ_NOT_APPLICABLE = -6, /* what was asked about has no such property */
    YUZ_BAD_AMOUNT = -7,    /* a limit's amount is no multiple of 512 bytes, or more than 2^49 */
    YUZ_NO_ENTRY = -8,      /* the last list has no name at this place */
    YUZ_SOURCE_FAILED = -9  /* the source of a stream failed */
};

/* The properties that `yuz_get` tells: sizes in bytes, and from YUZ_GUID on numbers (docs/SPACE.md). */
enum yuz_property {
    YUZ_USED = 0,
    YUZ_AVAILABLE = 1,
    YUZ_REFERENCED = 2,
    YUZ_WRITTEN = 3,
    YUZ_USED_BY_DATASET = 4,
    YUZ_USED_BY_SNAPSHOTS = 5,
    YUZ_USED_BY_CHILDREN = 6,
    YUZ_USED_BY_REF_RESERVATION = 7,
    YUZ_PROPERTY_QUOTA = 8,
    YUZ_PROPERTY_REF_QUOTA = 9,
    YUZ_RESERVATION = 10,
    YUZ_REF_RESERVATION = 11,
    YUZ_GUID = 12,
    YUZ_CREATE_TXG = 13,
    YUZ_USER_REFS = 14
};

/* The properties that `yuz_pool_get` tells: sizes in bytes, and the open group, a number. */
enum yuz_pool_property {
    YUZ_POOL_SIZE = 0,
    YUZ_POOL_ALLOCATED = 1,
    YUZ_POOL_FREE = 2,
    YUZ_POOL_FREEING = 3,
    YUZ_POOL_WAITING = 4,
    YUZ_POOL_GROUP = 5
};

/* The limits that `yuz_set` sets. */
enum yuz_limit {
    YUZ_LIMIT_QUOTA = 0,
    YUZ_LIMIT_REF_QUOTA = 1,
    YUZ_LIMIT_RESERVATION = 2,
    YUZ_LIMIT_REF_RESERVATION = 3
};

/* The mode of a receive (docs/RECEIVE.md, with the order of refusals of each). */
enum yuz_receiving {
    YUZ_RECEIVE_PLAIN = 0,   /* a full stream makes a file system; an incremental one goes into one that hasn't changed since its newest snapshot */
    YUZ_RECEIVE_BACK = 1,    /* the file system is rolled back to its newest snapshot first */
    YUZ_RECEIVE_PAST = 2,    /* the file system is rolled back to the stream's source; newer snapshots and bookmarks are destroyed */
    YUZ_RECEIVE_ORIGIN = 3,  /* an incremental stream makes a clone of its source */
    YUZ_RECEIVE_REPLACE = 4  /* a full stream takes the place of a file system; its contents, snapshots and bookmarks are destroyed */
};

/* What an entry of a list is, by its name: a file system, `p/a@s` or `p/a#m`. */
enum yuz_kind {
    YUZ_FILE_SYSTEM = 0,
    YUZ_SNAPSHOT = 1,
    YUZ_BOOKMARK = 2
};

/* What `yuz_entry` tells of a dataset or bookmark: sizes in bytes, and 0 for what its kind hasn't (a file system has no guid and no group, a
 * bookmark has no sizes). */
typedef struct yuz_entry_record {
    enum yuz_kind kind;
    uint64_t guid;
    uint64_t group;
    uint64_t used;
    uint64_t referenced;
} yuz_entry_record;

/* A handle. Its parts are the library's. */
typedef struct yuz_pool {
    bool is_open;
    struct {
        void *held;
    } slot;
} yuz_pool;

#define YUZ_NO_POOL { false, { NULL } }

/* The library's own names. They take no null pointer; the functions below test that, and are what a host calls. */
int32_t yuzgont_create(yuz_pool *pool, uint32_t id, uint32_t blocks);
void yuzgont_free(yuz_pool *pool);
int32_t yuzgont_line(yuz_pool *pool, const uint8_t *line, size_t length, uint32_t *refusal, size_t *size);
int32_t yuzgont_reply(yuz_pool *pool, size_t from, uint8_t *buffer, size_t length, size_t *count);
int32_t yuzgont_write(yuz_pool *pool, const uint8_t *name, size_t name_length, uint32_t object, uint32_t block, const uint8_t *bytes, size_t length);
int32_t yuzgont_read(yuz_pool *pool, const uint8_t *name, size_t name_length, uint32_t object, uint32_t block, uint8_t *buffer, size_t length, bool *is_hole);
int32_t yuzgont_punch(yuz_pool *pool, const uint8_t *name, size_t name_length, uint32_t object, uint32_t block);
int32_t yuzgont_snapshot(yuz_pool *pool, const uint8_t *name, size_t name_length, bool recursive);
int32_t yuzgont_get(yuz_pool *pool, const uint8_t *name, size_t name_length, uint32_t property, uint64_t *value);
int32_t yuzgont_sync(yuz_pool *pool, uint64_t *group);
int32_t yuzgont_slice(yuz_pool *pool, uint64_t count, uint64_t *taken);
int32_t yuzgont_abandon(yuz_pool *pool);
int32_t yuzgont_send(yuz_pool *pool, const uint8_t *name, size_t name_length, const uint8_t *from, size_t from_length, size_t *size);
int32_t yuzgont_stream(yuz_pool *pool, size_t from, uint8_t *buffer, size_t length, size_t *count);
int32_t yuzgont_receive(yuz_pool *pool, const uint8_t *name, size_t name_length, const uint8_t *bytes, size_t length, uint32_t mode, const uint8_t *origin, size_t origin_length);
int32_t yuzgont_forget(yuz_pool *pool);
int32_t yuzgont_create_file_system(yuz_pool *pool, const uint8_t *name, size_t name_length);
int32_t yuzgont_clone(yuz_pool *pool, const uint8_t *snapshot, size_t snapshot_length, const uint8_t *name, size_t name_length);
int32_t yuzgont_destroy(yuz_pool *pool, const uint8_t *name, size_t name_length, bool recursive, bool defer);
int32_t yuzgont_destroy_snapshots(yuz_pool *pool, const uint8_t *names, size_t names_length, bool recursive, bool defer);
int32_t yuzgont_promote(yuz_pool *pool, const uint8_t *name, size_t name_length);
int32_t yuzgont_rename(yuz_pool *pool, const uint8_t *name, size_t name_length, const uint8_t *to, size_t to_length);
int32_t yuzgont_rename_snapshot(yuz_pool *pool, const uint8_t *name, size_t name_length, const uint8_t *to, size_t to_length, bool recursive);
int32_t yuzgont_rollback(yuz_pool *pool, const uint8_t *snapshot, size_t snapshot_length, bool later);
int32_t yuzgont_bookmark(yuz_pool *pool, const uint8_t *snapshot, size_t snapshot_length, const uint8_t *mark, size_t mark_length);
int32_t yuzgont_hold(yuz_pool *pool, const uint8_t *tag, size_t tag_length, const uint8_t *snapshot, size_t snapshot_length);
int32_t yuzgont_release(yuz_pool *pool, const uint8_t *tag, size_t tag_length, const uint8_t *snapshot, size_t snapshot_length);
int32_t yuzgont_set(yuz_pool *pool, const uint8_t *name, size_t name_length, uint32_t limit, uint64_t amount);
int32_t yuzgont_free_object(yuz_pool *pool, const uint8_t *name, size_t name_length, uint32_t object);
int32_t yuzgont_open_view(yuz_pool *pool, const uint8_t *snapshot, size_t snapshot_length, uint64_t *view);
int32_t yuzgont_close_view(yuz_pool *pool, uint64_t view);
int32_t yuzgont_written_since(yuz_pool *pool, const uint8_t *name, size_t name_length, const uint8_t *since, size_t since_length, uint64_t *value);
int32_t yuzgont_would_free(yuz_pool *pool, const uint8_t *name, size_t name_length, const uint8_t *first, size_t first_length, const uint8_t *last, size_t last_length, uint64_t *value);
int32_t yuzgont_pool_get(yuz_pool *pool, uint32_t property, uint64_t *value);
int32_t yuzgont_list(yuz_pool *pool, size_t *count);
int32_t yuzgont_holds(yuz_pool *pool, const uint8_t *snapshot, size_t snapshot_length, size_t *count);
int32_t yuzgont_name(yuz_pool *pool, size_t index, uint8_t *buffer, size_t length, size_t *size);

/* Whether a pointer and a length are no bytes that a call may be given. A length of 0 goes with any pointer. */
static inline bool yuz_is_wrong(const void *bytes, size_t length) { return length > PTRDIFF_MAX || (bytes == NULL && length > 0); }

/* A pointer that isn't null, for bytes of which there may be none. */
static inline const uint8_t *yuz_bytes(const void *bytes) { return bytes == NULL ? (const uint8_t *)"" : (const uint8_t *)bytes; }

/* Makes a pool with an id, not 0 and of no pool before it, and 1 to 4,194,304 blocks. YUZ_BAD_NAME for id 0, else YUZ_TOO_MANY for another number of blocks. */
static inline int yuz_create(yuz_pool *pool, uint32_t id, uint32_t blocks) {
    if (pool == NULL) return YUZ_NULL;
    return yuzgont_create(pool, id, blocks);
}

/* Frees a pool with all its memory. Does nothing for null and for a handle without a pool. */
static inline void yuz_free(yuz_pool *pool) {
    if (pool != NULL) yuzgont_free(pool);
}

/* Answers a line, without its line feed (docs/COMMANDS.md). YUZ_DONE says that it was answered: `refusal` is the number of the refusal then
 * (1 to 30), or 0 where the line wasn't refused. The reply, with its line feed, is kept until the next line; `size` is its length, and
 * `yuz_reply` reads it. */
static inline int yuz_line(yuz_pool *pool, const char *line, size_t length, uint32_t *refusal, size_t *size) {
    if (pool == NULL || yuz_is_wrong(line, length) || refusal == NULL || size == NULL) return YUZ_NULL;
    return yuzgont_line(pool, yuz_bytes(line), length, refusal, size);
}

/* Copies bytes of the last reply, from a place on, as many as fit and are there, and tells how many. Read again as often as you like. */
static inline int yuz_reply(yuz_pool *pool, size_t from, void *buffer, size_t length, size_t *count) {
    uint8_t none;
    if (pool == NULL || yuz_is_wrong(buffer, length) || count == NULL) return YUZ_NULL;
    return yuzgont_reply(pool, from, length > 0 ? (uint8_t *)buffer : &none, length, count);
}

/* Writes block `block`, 0 to 4095, of object `object`, 0 to 255, of a file system. YUZ_BAD_LENGTH unless there are 512 bytes. */
static inline int yuz_write(yuz_pool *pool, const char *name, size_t name_length, uint32_t object, uint32_t block, const void *bytes, size_t length) {
    if (pool == NULL || yuz_is_wrong(name, name_length) || yuz_is_wrong(bytes, length)) return YUZ_NULL;
    return yuzgont_write(pool, yuz_bytes(name), name_length, object, block, yuz_bytes(bytes), length);
}

/* Reads a block into 512 bytes, and tells whether it is a hole, which reads as zeros. YUZ_BAD_LENGTH unless the buffer has 512 bytes. */
static inline int yuz_read(yuz_pool *pool, const char *name, size_t name_length, uint32_t object, uint32_t block, void *buffer, size_t length, bool *is_hole) {
    uint8_t none;
    if (pool == NULL || yuz_is_wrong(name, name_length) || yuz_is_wrong(buffer, length) || is_hole == NULL) return YUZ_NULL;
    return yuzgont_read(pool, yuz_bytes(name), name_length, object, block, length > 0 ? (uint8_t *)buffer : &none, length, is_hole);
}

/* Makes a block a hole. */
static inline int yuz_punch(yuz_pool *pool, const char *name, size_t name_length, uint32_t object, uint32_t block) {
    if (pool == NULL || yuz_is_wrong(name, name_length)) return YUZ_NULL;
    return yuzgont_punch(pool, yuz_bytes(name), name_length, object, block);
}

/* Makes a snapshot, as `p/a@s`, and with `recursive` one of the same component of each file system below. */
static inline int yuz_snapshot(yuz_pool *pool, const char *name, size_t name_length, bool recursive) {
    if (pool == NULL || yuz_is_wrong(name, name_length)) return YUZ_NULL;
    return yuzgont_snapshot(pool, yuz_bytes(name), name_length, recursive);
}

/* Tells a property, an `enum yuz_property`, of a dataset. */
static inline int yuz_get(yuz_pool *pool, const char *name, size_t name_length, uint32_t property, uint64_t *value) {
    if (pool == NULL || yuz_is_wrong(name, name_length) || value == NULL) return YUZ_NULL;
    return yuzgont_get(pool, yuz_bytes(name), name_length, property, value);
}

/* Makes the present state the last synced one, and tells the new open group. Nothing is written to a disk. */
static inline int yuz_sync(yuz_pool *pool, uint64_t *group) {
    if (pool == NULL || group == NULL) return YUZ_NULL;
    return yuzgont_sync(pool, group);
}

/* Frees so many blocks of what was destroyed, or all where they are fewer, and tells how many. */
static inline int yuz_slice(yuz_pool *pool, uint64_t count, uint64_t *taken) {
    if (pool == NULL || taken == NULL) return YUZ_NULL;
    return yuzgont_slice(pool, count, taken);
}

/* Returns to the last synced state, which undoes everything since. YUZ_BUSY while a view is open. */
static inline int yuz_abandon(yuz_pool *pool) {
    if (pool == NULL) return YUZ_NULL;
    return yuzgont_abandon(pool);
}

/* Makes the stream of a snapshot, in full or from a source, a snapshot or a bookmark; an empty `from` names none. The stream is kept until the
 * next send or `yuz_forget`; `size` is its length, and `yuz_stream` reads it by pieces. A refused send leaves the one before. */
static inline int yuz_send(yuz_pool *pool, const char *name, size_t name_length, const char *from, size_t from_length, size_t *size) {
    if (pool == NULL || yuz_is_wrong(name, name_length) || yuz_is_wrong(from, from_length) || size == NULL) return YUZ_NULL;
    return yuzgont_send(pool, yuz_bytes(name), name_length, yuz_bytes(from), from_length, size);
}

/* Copies bytes of the last stream, from a place on, as many as fit and are there, and tells how many: 0 at its end. */
static inline int yuz_stream(yuz_pool *pool, size_t from, void *buffer, size_t length, size_t *count) {
    uint8_t none;
    if (pool == NULL || yuz_is_wrong(buffer, length) || count == NULL) return YUZ_NULL;
    return yuzgont_stream(pool, from, length > 0 ? (uint8_t *)buffer : &none, length, count);
}

/* Receives a whole stream as a snapshot, in a mode; `origin` names a snapshot at YUZ_RECEIVE_ORIGIN, and isn't looked at elsewhere.
 * YUZ_BAD_STREAM where the bytes are no stream, as where it was cut, or not one for the mode; YUZ_NO_PROPERTY where there is no such mode. */
static inline int yuz_receive(yuz_pool *pool, const char *name, size_t name_length, const void *bytes, size_t length, enum yuz_receiving mode, const char *origin, size_t origin_length) {
    if (pool == NULL || yuz_is_wrong(name, name_length) || yuz_is_wrong(bytes, length) || yuz_is_wrong(origin, origin_length)) return YUZ_NULL;
    return yuzgont_receive(pool, yuz_bytes(name), name_length, yuz_bytes(bytes), length, (uint32_t)mode, yuz_bytes(origin), origin_length);
}

/* Makes an empty file system, as `p/a`. */
static inline int yuz_create_file_system(yuz_pool *pool, const char *name, size_t name_length) {
    if (pool == NULL || yuz_is_wrong(name, name_length)) return YUZ_NULL;
    return yuzgont_create_file_system(pool, yuz_bytes(name), name_length);
}

/* Makes a file system with the blocks of a snapshot, which is its origin from then on. */
static inline int yuz_clone(yuz_pool *pool, const char *snapshot, size_t snapshot_length, const char *name, size_t name_length) {
    if (pool == NULL || yuz_is_wrong(snapshot, snapshot_length) || yuz_is_wrong(name, name_length)) return YUZ_NULL;
    return yuzgont_clone(pool, yuz_bytes(snapshot), snapshot_length, yuz_bytes(name), name_length);
}

/* Destroys a file system, a snapshot or a bookmark. With `recursive` a file system is destroyed with all below it and all their snapshots and
 * bookmarks, and a snapshot with those of its name in all file systems below. With `defer` a snapshot that has a tag, an open view or a clone is
 * destroyed with the last of these. */
static inline int yuz_destroy(yuz_pool *pool, const char *name, size_t name_length, bool recursive, bool defer) {
    if (pool == NULL || yuz_is_wrong(name, name_length)) return YUZ_NULL;
    return yuzgont_destroy(pool, yuz_bytes(name), name_length, recursive, defer);
}

/* Destroys snapshots, all or none of them: `names` has a space between two names, as in "p/a@s p/b@s". A name that no snapshot has is passed over;
 * YUZ_NO_DATASET where none has one. `recursive` and `defer` are as for yuz_destroy. */
static inline int yuz_destroy_snapshots(yuz_pool *pool, const char *names, size_t names_length, bool recursive, bool defer) {
    if (pool == NULL || yuz_is_wrong(names, names_length)) return YUZ_NULL;
    return yuzgont_destroy_snapshots(pool, yuz_bytes(names), names_length, recursive, defer);
}

/* Gives a clone its origin, with all older snapshots; the file system that had them becomes the clone. */
static inline int yuz_promote(yuz_pool *pool, const char *name, size_t name_length) {
    if (pool == NULL || yuz_is_wrong(name, name_length)) return YUZ_NULL;
    return yuzgont_promote(pool, yuz_bytes(name), name_length);
}

/* Renames a file system, and with it all below it; their snapshots and bookmarks go with them. The file system above the new name must be there.
 * YUZ_BAD_NAME for a new name below the old one, and where a whole name would have more than 255 bytes. */
static inline int yuz_rename(yuz_pool *pool, const char *name, size_t name_length, const char *to, size_t to_length) {
    if (pool == NULL || yuz_is_wrong(name, name_length) || yuz_is_wrong(to, to_length)) return YUZ_NULL;
    return yuzgont_rename(pool, yuz_bytes(name), name_length, yuz_bytes(to), to_length);
}

/* Renames a snapshot within its file system: `name` is its whole name, and `to` the new part after the `@`. With `recursive` the snapshots of its
 * name in all file systems below are renamed too; one that has none stays as it is. YUZ_EXISTS where one of these file systems has a snapshot of the
 * new name, and YUZ_BUSY while a view of one that would be renamed is open. */
static inline int yuz_rename_snapshot(yuz_pool *pool, const char *name, size_t name_length, const char *to, size_t to_length, bool recursive) {
    if (pool == NULL || yuz_is_wrong(name, name_length) || yuz_is_wrong(to, to_length)) return YUZ_NULL;
    return yuzgont_rename_snapshot(pool, yuz_bytes(name), name_length, yuz_bytes(to), to_length, recursive);
}

/* Makes a file system as this snapshot of it is, which must be the newest one unless `later` is set. With `later` newer snapshots and bookmarks
 * are destroyed. */
static inline int yuz_rollback(yuz_pool *pool, const char *snapshot, size_t snapshot_length, bool later) {
    if (pool == NULL || yuz_is_wrong(snapshot, snapshot_length)) return YUZ_NULL;
    return yuzgont_rollback(pool, yuz_bytes(snapshot), snapshot_length, later);
}

/* Keeps a snapshot's guid and group under a bookmark's name, as `p/a#m`, for later sends. */
static inline int yuz_bookmark(yuz_pool *pool, const char *snapshot, size_t snapshot_length, const char *mark, size_t mark_length) {
    if (pool == NULL || yuz_is_wrong(snapshot, snapshot_length) || yuz_is_wrong(mark, mark_length)) return YUZ_NULL;
    return yuzgont_bookmark(pool, yuz_bytes(snapshot), snapshot_length, yuz_bytes(mark), mark_length);
}

/* Gives a snapshot a tag, which keeps it from being destroyed. */
static inline int yuz_hold(yuz_pool *pool, const char *tag, size_t tag_length, const char *snapshot, size_t snapshot_length) {
    if (pool == NULL || yuz_is_wrong(tag, tag_length) || yuz_is_wrong(snapshot, snapshot_length)) return YUZ_NULL;
    return yuzgont_hold(pool, yuz_bytes(tag), tag_length, yuz_bytes(snapshot), snapshot_length);
}

/* Takes a tag from a snapshot. */
static inline int yuz_release(yuz_pool *pool, const char *tag, size_t tag_length, const char *snapshot, size_t snapshot_length) {
    if (pool == NULL || yuz_is_wrong(tag, tag_length) || yuz_is_wrong(snapshot, snapshot_length)) return YUZ_NULL;
    return yuzgont_release(pool, yuz_bytes(tag), tag_length, yuz_bytes(snapshot), snapshot_length);
}

/* Sets a limit, an `enum yuz_limit`, of a file system to an amount in bytes, a multiple of 512 up to 2^49; 0 removes it. YUZ_NO_PROPERTY and
 * YUZ_BAD_AMOUNT for other numbers. */
static inline int yuz_set(yuz_pool *pool, const char *name, size_t name_length, uint32_t limit, uint64_t amount) {
    if (pool == NULL || yuz_is_wrong(name, name_length)) return YUZ_NULL;
    return yuzgont_set(pool, yuz_bytes(name), name_length, limit, amount);
}

/* Makes each block of an object a hole. */
static inline int yuz_free_object(yuz_pool *pool, const char *name, size_t name_length, uint32_t object) {
    if (pool == NULL || yuz_is_wrong(name, name_length)) return YUZ_NULL;
    return yuzgont_free_object(pool, yuz_bytes(name), name_length, object);
}

/* Opens a view of a snapshot, which keeps it until the view is closed, and tells the view's number. */
static inline int yuz_open_view(yuz_pool *pool, const char *snapshot, size_t snapshot_length, uint64_t *view) {
    if (pool == NULL || yuz_is_wrong(snapshot, snapshot_length) || view == NULL) return YUZ_NULL;
    return yuzgont_open_view(pool, yuz_bytes(snapshot), snapshot_length, view);
}

/* Closes a view. */
static inline int yuz_close_view(yuz_pool *pool, uint64_t view) {
    if (pool == NULL) return YUZ_NULL;
    return yuzgont_close_view(pool, view);
}

/* Tells how many bytes of blocks a dataset has that an older snapshot of its lineage hasn't. */
static inline int yuz_written_since(yuz_pool *pool, const char *name, size_t name_length, const char *since, size_t since_length, uint64_t *value) {
    if (pool == NULL || yuz_is_wrong(name, name_length) || yuz_is_wrong(since, since_length) || value == NULL) return YUZ_NULL;
    return yuzgont_written_since(pool, yuz_bytes(name), name_length, yuz_bytes(since), since_length, value);
}

/* Tells how many bytes of blocks would be freed with a file system's snapshots from one to another, each named by the part after its `@`. */
static inline int yuz_would_free(yuz_pool *pool, const char *name, size_t name_length, const char *first, size_t first_length, const char *last, size_t last_length, uint64_t *value) {
    if (pool == NULL || yuz_is_wrong(name, name_length) || yuz_is_wrong(first, first_length) || yuz_is_wrong(last, last_length) || value == NULL) return YUZ_NULL;
    return yuzgont_would_free(pool, yuz_bytes(name), name_length, yuz_bytes(first), first_length, yuz_bytes(last), last_length, value);
}

/* Tells a property of the pool, an `enum yuz_pool_property`. */
static inline int yuz_pool_get(yuz_pool *pool, uint32_t property, uint64_t *value) {
    if (pool == NULL || value == NULL) return YUZ_NULL;
    return yuzgont_pool_get(pool, property, value);
}

/* Lists all file systems in byte order, each with its snapshots, oldest first, and then its bookmarks. The names are kept until the next list,
 * `yuz_holds` or `yuz_forget`; `count` is how many there are, and `yuz_name` and `yuz_entry` tell of each. A refused list leaves the one before. */
static inline int yuz_list(yuz_pool *pool, size_t *count) {
    if (pool == NULL || count == NULL) return YUZ_NULL;
    return yuzgont_list(pool, count);
}

/* Lists the tags of a snapshot in the order in which they were made, and keeps them as `yuz_list` does. */
static inline int yuz_holds(yuz_pool *pool, const char *snapshot, size_t snapshot_length, size_t *count) {
    if (pool == NULL || yuz_is_wrong(snapshot, snapshot_length) || count == NULL) return YUZ_NULL;
    return yuzgont_holds(pool, yuz_bytes(snapshot), snapshot_length, count);
}

/* Copies a name of the last list, by its place from 0 on, into a buffer, as much as fits, and tells its whole length, at most 255 bytes. No
 * zero byte follows it. YUZ_NO_ENTRY past the last one. */
static inline int yuz_name(yuz_pool *pool, size_t index, char *buffer, size_t length, size_t *size) {
    uint8_t none;
    if (pool == NULL || yuz_is_wrong(buffer, length) || size == NULL) return YUZ_NULL;
    return yuzgont_name(pool, index, length > 0 ? (uint8_t *)buffer : &none, length, size);
}

/* Tells a number of a dataset, or 0 where its kind has no such property. */
static inline int yuz_get_or_zero(yuz_pool *pool, const char *name, size_t name_length, uint32_t property, uint64_t *value) {
    int code = yuz_get(pool, name, name_length, property, value);
    if (code == YUZ_NOT_APPLICABLE) *value = 0;
    return code == YUZ_NOT_APPLICABLE ? YUZ_DONE : code;
}

/* Tells what a name of the last list is now, in a record: what `yuz_get` tells of each part. `buffer` gets the name as `yuz_name` gives it.
 * YUZ_NO_DATASET where it was destroyed or renamed since the list was made. A list and its entries are read one by one, so no line holds 65,536
 * names. */
static inline int yuz_entry(yuz_pool *pool, size_t index, char buffer[YUZ_NAME_SIZE], size_t *size, yuz_entry_record *entry) {
    if (entry == NULL) return YUZ_NULL;
    int code = yuz_name(pool, index, buffer, YUZ_NAME_SIZE, size);
    if (code != YUZ_DONE) return code;
    entry->kind = memchr(buffer, '@', *size) != NULL ? YUZ_SNAPSHOT : memchr(buffer, '#', *size) != NULL ? YUZ_BOOKMARK : YUZ_FILE_SYSTEM;
    if ((code = yuz_get_or_zero(pool, buffer, *size, YUZ_GUID, &entry->guid)) != YUZ_DONE) return code;
    if ((code = yuz_get_or_zero(pool, buffer, *size, YUZ_CREATE_TXG, &entry->group)) != YUZ_DONE) return code;
    if ((code = yuz_get_or_zero(pool, buffer, *size, YUZ_USED, &entry->used)) != YUZ_DONE) return code;
    return yuz_get_or_zero(pool, buffer, *size, YUZ_REFERENCED, &entry->referenced);
}

/* What a host does with the next bytes of a stream. It answers 0 to go on. Another number ends the call, which answers that number. */
typedef int (*yuz_sink)(void *context, const uint8_t *bytes, size_t length);

/* Sends as `yuz_send`, and hands the stream to a sink by pieces. The stream is freed by the next send or `yuz_forget`. */
static inline int yuz_send_to(yuz_pool *pool, const char *name, size_t name_length, const char *from, size_t from_length, yuz_sink sink, void *context) {
    uint8_t piece[4096];
    size_t size = 0, count = 0;
    if (sink == NULL) return YUZ_NULL;
    int code = yuz_send(pool, name, name_length, from, from_length, &size);
    for (size_t at = 0; code == YUZ_DONE && at < size; at += count) {
        code = yuz_stream(pool, at, piece, sizeof piece, &count);
        if (code == YUZ_DONE) code = sink(context, piece, count);
    }
    return code;
}

/* Where the next bytes of a stream come from: how many were put into the buffer, 0 at the end, or a negative number for a failure. */
typedef ptrdiff_t (*yuz_source)(void *context, uint8_t *buffer, size_t length);

/* Receives as `yuz_receive` what a source gives, which is gathered first. YUZ_NO_MEMORY where there is no room for it, and `YUZ_SOURCE_FAILED`
 * where the source fails; nothing has changed then. */
static inline int yuz_receive_from(yuz_pool *pool, const char *name, size_t name_length, yuz_source source, void *context, enum yuz_receiving mode, const char *origin, size_t origin_length) {
    size_t room = 65536, length = 0;
    if (pool == NULL || source == NULL) return YUZ_NULL;
    uint8_t *bytes = (uint8_t *)malloc(room);
    int code = bytes == NULL ? YUZ_NO_MEMORY : YUZ_DONE;
    while (code == YUZ_DONE) {
        ptrdiff_t count = source(context, bytes + length, room - length);
        if (count == 0) break;
        if (count < 0 || (size_t)count > room - length) code = YUZ_SOURCE_FAILED;
        else if ((length += (size_t)count) == room) {
            uint8_t *more = room > PTRDIFF_MAX / 2 ? NULL : (uint8_t *)realloc(bytes, room * 2);
            if (more == NULL) code = YUZ_NO_MEMORY;
            else bytes = more, room *= 2;
        }
    }
    if (code == YUZ_DONE) code = yuz_receive(pool, name, name_length, bytes, length, mode, origin, origin_length);
    free(bytes);
    return code;
}

/* What a stream changes: `count` blocks from `block` of `object` on become holes, where `bytes` is null, or one block has these 512 bytes. A
 * sink answers 0 to go on, or another number to stop there. Blocks come in rising order of object and block, and a change stays within an
 * object. */
typedef int (*yuz_change)(void *context, uint32_t object, uint32_t block, uint32_t count, const uint8_t *bytes);

/* Tells a number of so many bytes, the highest first. */
static inline uint64_t yuz_number(const uint8_t *bytes, size_t length) {
    uint64_t number = 0;
    for (size_t at = 0; at < length; at++) number = number << 8 | bytes[at];
    return number;
}

/* Hands the blocks from a leaf on, which become holes, to a sink, object by object. */
static inline int yuz_holes(uint64_t leaf, uint64_t count, yuz_change change, void *context) {
    int code = 0;
    while (code == 0 && count > 0) {
        uint64_t left = 4096 - leaf % 4096, now = count < left ? count : left;
        code = change(context, (uint32_t)(leaf / 4096), (uint32_t)(leaf % 4096), (uint32_t)now, NULL);
        leaf += now;
        count -= now;
    }
    return code;
}

/* Tells the difference of two snapshots of a lineage, or with an empty `from` all of a snapshot: what a send from one to the other changes.
 * The stream of that send is kept as by `yuz_send`. A number other than 0 from the sink ends the call, which answers that number. */
static inline int yuz_diff(yuz_pool *pool, const char *name, size_t name_length, const char *from, size_t from_length, yuz_change change, void *context) {
    uint8_t record[517];
    size_t size = 0, count = 0;
    if (change == NULL) return YUZ_NULL;
    int code = yuz_send(pool, name, name_length, from, from_length, &size);
    /* A header of 24 bytes, then writes (1, a leaf, 512 bytes) and frees (2, a level, an index), and an end (0, 32 bytes). */
    for (size_t at = 24; code == YUZ_DONE && at < size; at += count) {
        code = yuz_stream(pool, at, record, sizeof record, &count);
        if (code != YUZ_DONE || count == 0 || record[0] == 0) break;
        count = record[0] == 1 ? 517 : 6;
        if (record[0] == 1) {
            uint64_t leaf = yuz_number(record + 1, 4);
            code = change(context, (uint32_t)(leaf / 4096), (uint32_t)(leaf % 4096), 1, record + 5);
        } else {
            uint64_t leaves = (uint64_t)1 << (4 * record[1]);
            code = yuz_holes(yuz_number(record + 2, 4) * leaves, leaves, change, context);
        }
    }
    return code;
}

/* The version of the library: that of the header that it was made from. */
static inline const char *yuz_version(void) { return YUZ_VERSION; }

/* Tells a code's name and what it says, in a sentence; "unknown" for another number. */
static inline const char *yuz_text(int code) {
    switch (code) {
        case YUZ_DONE: return "Done: it was done";
        case YUZ_BAD_NAME: return "BadName: a word is no name of the kind that stands there, or a whole name would have more than 255 bytes";
        case YUZ_NO_DATASET: return "NoDataset: nothing has the name";
        case YUZ_EXISTS: return "Exists: the name is taken";
        case YUZ_NO_PARENT: return "NoParent: the file system above the new one is not there";
        case YUZ_BAD_KEY: return "BadKey: an object is past 255 or a block past 4095";
        case YUZ_READ_ONLY: return "ReadOnly: a snapshot cannot be written to";
        case YUZ_NOT_SNAPSHOT: return "NotSnapshot: the name is not a snapshot's";
        case YUZ_BUSY: return "Busy: a tag or an open view needs the snapshot";
        case YUZ_HAS_CLONES: return "HasClones: a clone needs the snapshot";
        case YUZ_HAS_CHILDREN: return "HasChildren: the file system has file systems below it or snapshots";
        case YUZ_NOT_NEWEST: return "NotNewest: newer snapshots or bookmarks exist";
        case YUZ_NOT_CLONE: return "NotClone: the file system has no origin";
        case YUZ_NAME_CLASH: return "NameClash: the clone has a snapshot of the same name";
        case YUZ_TAG_EXISTS: return "TagExists: the snapshot has the tag";
        case YUZ_NO_TAG: return "NoTag: the snapshot has no such tag";
        case YUZ_DEFERRED: return "Deferred: the snapshot's destroy is deferred";
        case YUZ_NOT_ANCESTOR: return "NotAncestor: the snapshot is not older in the lineage";
        case YUZ_QUOTA: return "Quota: a quota would be exceeded";
        case YUZ_REF_QUOTA: return "RefQuota: a refquota would be exceeded";
        case YUZ_NO_SPACE: return "NoSpace: the pool would have too little space";
        case YUZ_TOO_MANY: return "TooMany: a limit of the pool is reached";
        case YUZ_BAD_STREAM: return "BadStream: the bytes are no whole stream";
        case YUZ_WRONG_SOURCE: return "WrongSource: the newest snapshot is not the stream's source";
        case YUZ_MODIFIED: return "Modified: the file system was written to since its newest snapshot";
        case YUZ_NO_MEMORY: return "NoMemory: memory was refused";
        case YUZ_NO_VIEW: return "NoView: no such view is open";
        case YUZ_IS_ROOT: return "IsRoot: the root file system cannot be destroyed or renamed";
        case YUZ_BAD_LINE: return "BadLine: the line has no command's shape";
        case YUZ_SESSION_FULL: return "SessionFull: the session has run as many calls as it was opened for";
        case YUZ_TOO_MANY_SEATS: return "TooManySeats: the session has given 64 seats";
        case YUZ_NULL: return "Null: a pointer is null, or a length is past PTRDIFF_MAX";
        case YUZ_POOL_MISSING: return "PoolMissing: the handle has no pool";
        case YUZ_POOL_THERE: return "PoolThere: the handle has a pool already";
        case YUZ_BAD_LENGTH: return "BadLength: a block is not 512 bytes";
        case YUZ_NO_PROPERTY: return "NoProperty: no property or limit has this number";
        case YUZ_NOT_APPLICABLE: return "NotApplicable: this kind of dataset has no such property";
        case YUZ_BAD_AMOUNT: return "BadAmount: a limit is no multiple of 512 bytes, or more than 2^49";
        case YUZ_NO_ENTRY: return "NoEntry: the last list has no name at this place";
        case YUZ_SOURCE_FAILED: return "SourceFailed: the source of a stream failed";
        default: return "unknown";
    }
}

/* Frees the memory of the last reply, the last stream and the last list. */
static inline int yuz_forget(yuz_pool *pool) {
    if (pool == NULL) return YUZ_NULL;
    return yuzgont_forget(pool);
}

#ifdef __cplusplus
}
#endif

#endif
