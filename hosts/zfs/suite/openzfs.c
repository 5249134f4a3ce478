/* A preload for OpenZFS's own programs zfs and zpool: a /dev/zfs that answers.
 *
 * It has the datasets of the file $OPENZFS_HAS, a line each: name, type, origin, holds, guid, mountpoint, canmount, sharenfs, sharesmb, parted by
 * tabs, as `zfs list -H -t all -o name,type,origin,userrefs,guid,mountpoint,canmount,sharenfs,sharesmb` writes them. Each change is refused with the
 * number $OPENZFS_ERRNO, as a kernel would: each name of a request of several, or with $OPENZFS_WHOLE the request as a whole. So the programs say
 * what OpenZFS says. With 0 no change is refused, and the four properties are set; each mount is refused with $OPENZFS_MOUNT, where that is there.
 * The layout of a request is OpenZFS 2.1's `zfs_cmd_t` (include/sys/zfs_ioctl.h), the numbers are those of include/sys/fs/zfs.h.
 */
#define _GNU_SOURCE
#include <dlfcn.h>
#include <errno.h>
#include <fcntl.h>
#include <stdarg.h>
#include <stdint.h>
#include <stdio.h>
#include <stdlib.h>
#include <string.h>
#include <sys/stat.h>
#include <unistd.h>

/* libnvpair's */
typedef struct nvlist nvlist_t;
typedef struct nvpair nvpair_t;
extern int nvlist_alloc(nvlist_t **, unsigned, int);
extern int nvlist_add_uint64(nvlist_t *, const char *, uint64_t);
extern int nvlist_add_int32(nvlist_t *, const char *, int32_t);
extern int nvlist_add_string(nvlist_t *, const char *, const char *);
extern int nvlist_add_boolean(nvlist_t *, const char *);
extern int nvlist_add_nvlist(nvlist_t *, const char *, nvlist_t *);
extern int nvlist_add_uint64_array(nvlist_t *, const char *, uint64_t *, unsigned);
extern int nvlist_pack(nvlist_t *, char **, size_t *, int, int);
extern int nvlist_unpack(char *, size_t, nvlist_t **, int);
extern int nvlist_lookup_nvlist(nvlist_t *, const char *, nvlist_t **);
extern int nvlist_lookup_string(nvlist_t *, const char *, char **);
extern int nvlist_lookup_uint64(nvlist_t *, const char *, uint64_t *);
extern nvpair_t *nvlist_next_nvpair(nvlist_t *, nvpair_t *);
extern char *nvpair_name(nvpair_t *);

typedef struct {
    uint64_t clones, txg, guid;
    int type;
    uint8_t is_snapshot, inconsistent, redacted;
    char origin[256];
} stats_t;

typedef struct {
    char name[4096];
    uint64_t source, source_size, target, target_size;
    int filled, pad;
    uint64_t history;
    char value[8192];
    char string[256];
    uint64_t guid, conf, conf_size, cookie, rest[10];
    stats_t stats;
} request_t;

enum {
    POOL_CONFIGS = 0x5a04, POOL_STATS = 0x5a05, OBJSET_STATS = 0x5a12, ZPLPROPS = 0x5a13, DATASET_NEXT = 0x5a14, SNAPSHOT_NEXT = 0x5a15,
    SET_PROPERTY = 0x5a16, PROMOTE = 0x5a22, SNAPSHOT = 0x5a23, GET_PROPS = 0x5a27, RELEASE = 0x5a31, HOLD = 0x5a30, HOLDS = 0x5a32, RECVD_PROPS = 0x5a33, DESTROY_SNAPS = 0x5a3b,
    LOG_HISTORY = 0x5a3f, BOOKMARK = 0x5a43, GET_BOOKMARKS = 0x5a44, DESTROY_BOOKMARKS = 0x5a45,
};

enum { MOUNTPOINT, SHARENFS, SHARESMB, WORDS };
static const char *words[WORDS] = {"mountpoint", "sharenfs", "sharesmb"};

typedef struct {
    char *name, *origin;
    int volume, holds;
    uint64_t guid;
    char *word[WORDS]; /* of a file system; NULL where it isn't told */
    uint64_t canmount; /* off, on, noauto */
} dataset_t;

static dataset_t has[8192];
static int count = -1;

static void load(void) {
    char line[8192];
    FILE *file = fopen(getenv("OPENZFS_HAS") ? getenv("OPENZFS_HAS") : "/dev/null", "r");
    for (count = 0; file && count < 8192 && fgets(line, sizeof line, file);) {
        char *rest = line;
        char *name = strsep(&rest, "\t\n"), *type = strsep(&rest, "\t\n"), *origin = strsep(&rest, "\t\n"), *holds = strsep(&rest, "\t\n");
        char *guid = strsep(&rest, "\t\n"), *mountpoint = strsep(&rest, "\t\n"), *canmount = strsep(&rest, "\t\n");
        char *sharenfs = strsep(&rest, "\t\n"), *sharesmb = strsep(&rest, "\t\n");
        if (!name || !*name || !type || !origin || !holds || !guid)
            continue;
        has[count] = (dataset_t){strdup(name), strdup(origin), !strcmp(type, "volume"), atoi(holds), strtoull(guid, NULL, 10)};
        if (!strcmp(type, "filesystem") && sharesmb) {
            has[count].word[MOUNTPOINT] = strdup(mountpoint);
            has[count].word[SHARENFS] = strdup(sharenfs);
            has[count].word[SHARESMB] = strdup(sharesmb);
            has[count].canmount = strcmp(canmount, "off") ? strcmp(canmount, "on") ? 2 : 1 : 0;
        }
        count++;
    }
    if (file)
        fclose(file);
    for (int i = 0; i < count; i++) { /* what is a volume's is a volume's */
        char *at = strpbrk(has[i].name, "@#");
        for (int k = 0; at && k < count; k++)
            if (strlen(has[k].name) == (size_t)(at - has[i].name) && !strncmp(has[k].name, has[i].name, at - has[i].name))
                has[i].volume = has[k].volume;
    }
}

static int find(const char *name) {
    for (int i = 0; i < count; i++)
        if (!strcmp(has[i].name, name))
            return i;
    return -1;
}

static nvlist_t *list(void) {
    nvlist_t *made;
    nvlist_alloc(&made, 1, 0);
    return made;
}

static void number(nvlist_t *to, const char *key, uint64_t value) {
    nvlist_t *entry = list();
    nvlist_add_uint64(entry, "value", value);
    nvlist_add_string(entry, "source", "");
    nvlist_add_nvlist(to, key, entry);
}

static void word_from(nvlist_t *to, const char *key, const char *value, const char *source) {
    nvlist_t *entry = list();
    nvlist_add_string(entry, "value", value);
    nvlist_add_string(entry, "source", source);
    nvlist_add_nvlist(to, key, entry);
}

static void word(nvlist_t *to, const char *key, const char *value) { word_from(to, key, value, ""); }

static void of_pool(nvlist_t *to, const char *key, uint64_t value) {
    nvlist_t *entry = list();
    nvlist_add_uint64(entry, "value", value);
    nvlist_add_uint64(entry, "source", 0);
    nvlist_add_nvlist(to, key, entry);
}

static int give(request_t *request, nvlist_t *what) {
    char *bytes = NULL;
    size_t size = 0;
    nvlist_pack(what, &bytes, &size, 0, 0);
    if (size > request->target_size) {
        request->target_size = size;
        errno = ENOMEM;
        return -1;
    }
    memcpy((void *)(uintptr_t)request->target, bytes, size);
    request->target_size = size;
    request->filled = 1;
    return 0;
}

static int refuse(int number) {
    errno = number;
    return -1;
}

static nvlist_t *config(const char *name) {
    nvlist_t *made = list(), *devices = list();
    uint64_t stats[42] = {0, 7};
    nvlist_add_uint64(made, "version", 5000);
    nvlist_add_string(made, "name", name);
    nvlist_add_uint64(made, "state", 0);
    nvlist_add_uint64(made, "txg", 100);
    nvlist_add_uint64(made, "pool_guid", 12345);
    nvlist_add_string(devices, "type", "root");
    nvlist_add_uint64(devices, "id", 0);
    nvlist_add_uint64(devices, "guid", 12345);
    nvlist_add_uint64_array(devices, "vdev_stats", stats, 42);
    nvlist_add_nvlist(made, "vdev_tree", devices);
    return made;
}

/* File systems are older than snapshots. */
static uint64_t group(int at) {
    return strpbrk(has[at].name, "@#") ? 5 + at : 2;
}

static nvlist_t *properties(int at) {
    static const char *numbers[] = {"used", "available", "referenced", "logicalused", "logicalreferenced", "usedbysnapshots", "usedbydataset",
        "usedbychildren", "usedbyrefreservation", "written", "unique", "inconsistent", "userrefs", "defer_destroy"};
    nvlist_t *made = list(), *clones = NULL;
    for (size_t i = 0; i < sizeof numbers / sizeof *numbers; i++)
        number(made, numbers[i], i == 1 ? UINT64_C(4000000000) : 0);
    number(made, "compressratio", 100);
    number(made, "creation", 1700000000);
    number(made, "createtxg", group(at));
    number(made, "guid", has[at].guid);
    number(made, "objsetid", 50 + at);
    number(made, "version", 5);
    if (has[at].volume) {
        number(made, "volsize", 150 << 20);
        number(made, "volblocksize", 8192);
    }
    for (int i = 0; has[at].word[MOUNTPOINT] && i < WORDS; i++) /* each as its own, so that it isn't put together again */
        word_from(made, words[i], has[at].word[i], has[at].name);
    if (has[at].word[MOUNTPOINT])
        number(made, "canmount", has[at].canmount);
    if (strcmp(has[at].origin, "-"))
        word(made, "origin", has[at].origin);
    if (strchr(has[at].name, '@')) {
        nvlist_t *names = list();
        clones = list();
        for (int i = 0; i < count; i++)
            if (!strcmp(has[i].origin, has[at].name))
                nvlist_add_boolean(names, has[i].name);
        nvlist_add_nvlist(clones, "value", names);
        nvlist_add_nvlist(made, "clones", clones);
    }
    return made;
}

static int stats(request_t *request, int at) {
    memset(&request->stats, 0, sizeof request->stats);
    request->stats.type = has[at].volume ? 3 : 2;
    request->stats.guid = has[at].guid;
    request->stats.txg = group(at);
    request->stats.is_snapshot = strchr(has[at].name, '@') != NULL;
    for (int i = 0; i < count; i++)
        request->stats.clones += !strcmp(has[i].origin, has[at].name);
    if (strcmp(has[at].origin, "-"))
        snprintf(request->stats.origin, sizeof request->stats.origin, "%s", has[at].origin);
    return request->target ? give(request, properties(at)) : 0;
}

static int next(request_t *request, char sign) {
    size_t length = strlen(request->name);
    if (find(request->name) < 0)
        return refuse(ENOENT);
    for (int i = request->cookie; i < count; i++) {
        const char *rest = has[i].name + length;
        if (strncmp(has[i].name, request->name, length) || *rest != sign || strpbrk(rest + 1, "/@#"))
            continue;
        request->cookie = i + 1;
        snprintf(request->name, sizeof request->name, "%s", has[i].name);
        return stats(request, i);
    }
    return refuse(ESRCH);
}

/* Whether a name of a request of several is one that the kernel refuses so: what is there already exists, and what is held is busy. */
static int refused(unsigned long what, const char *name, int number) {
    int at = find(name);
    if (what == SNAPSHOT && number == EEXIST)
        return at >= 0;
    if (what == DESTROY_SNAPS && number == EBUSY)
        return at >= 0 && has[at].holds > 0;
    return 1;
}

/* A refusal that names what it is about, where the kernel's answer does. */
static int refuse_each(request_t *request, unsigned long what, int number) {
    nvlist_t *asked = NULL, *names = NULL, *errors = list();
    if (!request->target || !number || getenv("OPENZFS_WHOLE") || nvlist_unpack((char *)(uintptr_t)request->source, request->source_size, &asked, 0))
        return refuse(number);
    if (nvlist_lookup_nvlist(asked, what == HOLD ? "holds" : "snaps", &names))
        names = asked;
    for (nvpair_t *pair = nvlist_next_nvpair(names, NULL); pair; pair = nvlist_next_nvpair(names, pair))
        if (refused(what, nvpair_name(pair), number))
            nvlist_add_int32(errors, nvpair_name(pair), number);
    give(request, errors);
    return refuse(number);
}

/* Of the snapshots up to the origin, from it backward, the first whose name a snapshot of the clone has: the kernel gives its name with EEXIST, as
 * dsl_dataset_promote (module/zfs/dsl_dataset.c) does. Without one it doesn't refuse with EEXIST, so no text is right then. */
static int refuse_promote(request_t *request, int number) {
    int clone = find(request->name), at = clone < 0 ? -1 : find(has[clone].origin);
    size_t length = at < 0 ? 0 : strcspn(has[at].name, "@") + 1;
    if (number != EEXIST)
        return refuse(number);
    snprintf(request->string, sizeof request->string, "no snapshot is in the way");
    for (; at >= 0; at--) {
        char name[512];
        if (strncmp(has[at].name, has[find(has[clone].origin)].name, length))
            continue;
        snprintf(name, sizeof name, "%s@%s", request->name, has[at].name + length);
        if (find(name) >= 0) {
            snprintf(request->string, sizeof request->string, "%s", has[at].name + length);
            break;
        }
    }
    return refuse(number);
}

/* Sets those of the properties that are told of a file system. */
static int set(request_t *request, int at) {
    nvlist_t *asked = NULL;
    if (at < 0 || nvlist_unpack((char *)(uintptr_t)request->source, request->source_size, &asked, 0))
        return refuse(ENOENT);
    for (int i = 0; i < WORDS; i++) {
        char *value;
        if (!nvlist_lookup_string(asked, words[i], &value))
            has[at].word[i] = strdup(value);
    }
    nvlist_lookup_uint64(asked, "canmount", &has[at].canmount);
    return 0;
}

static int answer(unsigned long what, request_t *request) {
    const char *text = getenv("OPENZFS_ERRNO");
    int number = text ? atoi(text) : EIO, at;
    if (count < 0)
        load();
    at = find(request->name);
    switch (what) {
    case POOL_CONFIGS: {
        nvlist_t *all = list();
        if (request->cookie == 7)
            return refuse(EEXIST);
        for (int i = 0; i < count; i++)
            if (!strpbrk(has[i].name, "/@#"))
                nvlist_add_nvlist(all, has[i].name, config(has[i].name));
        request->cookie = 7;
        return give(request, all);
    }
    case POOL_STATS:
        if (at < 0 || strpbrk(request->name, "/@#"))
            return refuse(ENOENT);
        request->cookie = 0;
        return give(request, config(request->name));
    case GET_PROPS: {
        nvlist_t *made = list();
        of_pool(made, "size", UINT64_C(4) << 30);
        of_pool(made, "maxblocksize", 1 << 20);
        of_pool(made, "version", 5000);
        return give(request, made);
    }
    case OBJSET_STATS:
        return at < 0 ? refuse(ENOENT) : stats(request, at);
    case DATASET_NEXT:
        return next(request, '/');
    case SNAPSHOT_NEXT:
        return next(request, '@');
    case ZPLPROPS: {
        nvlist_t *made = list();
        nvlist_add_uint64(made, "version", 5);
        nvlist_add_uint64(made, "utf8only", 0);
        nvlist_add_uint64(made, "normalization", 0);
        nvlist_add_uint64(made, "casesensitivity", 0);
        return give(request, made);
    }
    case GET_BOOKMARKS: {
        nvlist_t *made = list();
        size_t length = strlen(request->name);
        for (int i = 0; i < count; i++)
            if (!strncmp(has[i].name, request->name, length) && has[i].name[length] == '#')
                nvlist_add_nvlist(made, has[i].name + length + 1, properties(i));
        return give(request, made);
    }
    case RECVD_PROPS: case HOLDS: case LOG_HISTORY:
        return request->target ? give(request, list()) : 0;
    case HOLD: case RELEASE:
        if (getenv("OPENZFS_HOLDS")) /* those of a send */
            return give(request, list());
        return refuse_each(request, what, number);
    case PROMOTE:
        if (number)
            return refuse_promote(request, number);
        break;
    case SET_PROPERTY:
        return number ? refuse_each(request, what, number) : set(request, at);
    case SNAPSHOT: case DESTROY_SNAPS: case BOOKMARK: case DESTROY_BOOKMARKS:
        return refuse_each(request, what, number);
    }
    if (number)
        return refuse(number);
    return request->target && request->target_size ? give(request, list()) : 0;
}

static int devices[64], opened;

#define OPEN(name)                                                                                                                             \
    int name(const char *path, int flags, ...) {                                                                                               \
        va_list rest;                                                                                                                          \
        va_start(rest, flags);                                                                                                                 \
        int mode = flags & O_CREAT ? va_arg(rest, int) : 0;                                                                                    \
        va_end(rest);                                                                                                                          \
        int (*real)(const char *, int, ...) = dlsym(RTLD_NEXT, #name);                                                                         \
        if (strcmp(path, "/dev/zfs"))                                                                                                          \
            return real(path, flags, mode);                                                                                                    \
        return devices[opened++ % 64] = real("/dev/null", O_RDWR, 0);                                                                          \
    }
OPEN(open)
OPEN(open64)

/* The module is there, with all of its properties and features. */
#define STAT(name, type)                                                                                                                       \
    int name(const char *path, struct type *to) {                                                                                              \
        int (*real)(const char *, struct type *) = dlsym(RTLD_NEXT, #name);                                                                    \
        if (strncmp(path, "/sys/module/zfs", 15))                                                                                              \
            return real(path, to);                                                                                                             \
        memset(to, 0, sizeof *to);                                                                                                             \
        to->st_mode = S_IFREG | 0444;                                                                                                          \
        return 0;                                                                                                                              \
    }
STAT(stat, stat)
STAT(stat64, stat64)

int mount(const char *source, const char *target, const char *type, unsigned long flags, const void *options) {
    const char *number = getenv("OPENZFS_MOUNT");
    (void)source, (void)target, (void)type, (void)flags, (void)options;
    return number ? refuse(atoi(number)) : 0;
}

int access(const char *path, int how) {
    int (*real)(const char *, int) = dlsym(RTLD_NEXT, "access");
    return strcmp(path, "/sys/module/zfs") && strcmp(path, "/dev/zfs") ? real(path, how) : 0;
}

int ioctl(int descriptor, unsigned long what, ...) {
    va_list rest;
    va_start(rest, what);
    void *argument = va_arg(rest, void *);
    va_end(rest);
    for (int i = 0; i < opened && i < 64; i++)
        if (devices[i] == descriptor)
            return answer(what, argument);
    int (*real)(int, unsigned long, ...) = dlsym(RTLD_NEXT, "ioctl");
    return real(descriptor, what, argument);
}
