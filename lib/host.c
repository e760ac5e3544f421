/* The host's part: the calls of the operating system, the table of units, and one thread for each unit that carries its transfers out.
   All that a transfer does is in libfj_link.a; here no byte of a file is looked at. */
#define _GNU_SOURCE
#include "lukhtame.h"
#include "fj_link.h"
#include <errno.h>
#include <fcntl.h>
#include <pthread.h>
#include <stdio.h>
#include <stdlib.h>
#include <string.h>
#include <strings.h>
#include <sys/stat.h>
#include <unistd.h>

/* A READ that was not told, and the array that gets its values; room for them where they come in another kind. */
struct reading {
    struct reading *next;
    uint32_t id;
    enum lk_kind kind;
    void *values;
    size_t count;
    int64_t *room;
};

/* `taken`, `device` and `inode` are under the lock `table`, all else is under the unit's own. */
static struct unit {
    int taken;
    dev_t device;
    ino_t inode;
    pthread_mutex_t door, lock;
    pthread_cond_t more;                /* there may be work for the worker */
    int has_worker, is_open, is_closed, is_changed, is_fixed;
    int file;
    char *path;
    uint32_t told;                      /* what CLOSE told, while its file is not written */
    struct reading *first, **last;
    _Alignas(16) uint8_t handle[FJ_LINK_ROOM];
} units[LK_UNITS] = {[0 ... LK_UNITS - 1] = {.door = PTHREAD_MUTEX_INITIALIZER, .lock = PTHREAD_MUTEX_INITIALIZER, .more = PTHREAD_COND_INITIALIZER}};

static pthread_mutex_t table = PTHREAD_MUTEX_INITIALIZER;

static int32_t answer(uint32_t code) {
    return code == 256 ? -1 : code == 257 ? -2 : (int32_t)code;
}

static int32_t failed(void) {
    return errno == ENOMEM ? LK_NO_MEMORY : LK_SYSTEM + errno;
}

/* ---- Threads: a unit's worker carries out one transfer at a time under the lock; whoever waits at the door is next behind it. ---- */

static void lock(struct unit *u) {
    pthread_mutex_lock(&u->door);
    pthread_mutex_lock(&u->lock);
    pthread_mutex_unlock(&u->door);
}

static void *work(void *at) {
    struct unit *u = at;
    for (;;) {
        lock(u);
        while (!u->is_open || u->is_closed || fj_link_work(u->handle) != 1) pthread_cond_wait(&u->more, &u->lock);
        pthread_mutex_unlock(&u->lock);
    }
    return NULL;
}

static void start_worker(struct unit *u) {
    pthread_t worker;
    if (!u->has_worker && !pthread_create(&worker, NULL, work, u)) {
        u->has_worker = 1;
        pthread_detach(worker);
    }
}

static struct unit *locked(int32_t number) {
    if (number < 1 || number > LK_UNITS) return NULL;
    struct unit *u = &units[number - 1];
    lock(u);
    if (u->is_open) return u;
    pthread_mutex_unlock(&u->lock);
    return NULL;
}

static int32_t unlocked(struct unit *u, int32_t code) {
    pthread_cond_signal(&u->more);
    pthread_mutex_unlock(&u->lock);
    return code;
}

/* ---- The file ---- */

static int32_t read_whole(int file, uint8_t *bytes, size_t length) {
    for (size_t at = 0; at < length;) {
        ssize_t got = pread(file, bytes + at, length - at, at);
        if (got > 0) at += got;
        else if (got == 0) return LK_SYSTEM + EIO;
        else if (errno != EINTR) return failed();
    }
    return 0;
}

static int32_t write_whole(int file, const uint8_t *bytes, size_t length) {
    for (size_t at = 0; at < length;) {
        ssize_t put = pwrite(file, bytes + at, length - at, at);
        if (put >= 0) at += put;
        else if (errno != EINTR) return failed();
    }
    return 0;
}

/* Writes what the file is to hold. Room is asked for first, so that a full disk is met while the file is as it was. */
static int32_t put_file(struct unit *u) {
    uint8_t none;
    struct stat old;
    if (!u->is_changed) return 0;
    uint64_t length = fj_link_left(u->handle, &none, 0);
    uint8_t *bytes = length > LK_FILE ? NULL : malloc(length + 1);
    if (!bytes) return LK_NO_MEMORY;
    if (length) fj_link_left(u->handle, bytes, length);
    int32_t code = fstat(u->file, &old) ? failed() : 0;
    if (!code && length && fallocate(u->file, FALLOC_FL_KEEP_SIZE, 0, length) && (errno == ENOSPC || errno == EDQUOT || errno == EFBIG)) {
        code = failed();
        if (ftruncate(u->file, old.st_size)) code = failed();
    }
    if (!code) code = write_whole(u->file, bytes, length);
    if (!code && ftruncate(u->file, length)) code = failed();
    free(bytes);
    if (!code) u->is_changed = 0;
    return code;
}

/* ---- OPEN ---- */

/* Opens the file, or makes one; one that may only be read is fixed. */
static int file_of(const char *path, int *is_fixed) {
    int file = open(path, O_RDWR | O_CREAT | O_CLOEXEC, 0666);
    *is_fixed = file < 0 && (errno == EACCES || errno == EROFS);
    return *is_fixed ? open(path, O_RDONLY | O_CLOEXEC) : file;
}

/* Opens the unit in memory over what the file holds. */
static int32_t open_over(struct unit *u, const struct stat *found, int formatted) {
    uint8_t *bytes = malloc(found->st_size + 1);
    if (!bytes) return LK_NO_MEMORY;
    int32_t fault = read_whole(u->file, bytes, found->st_size);
    uint32_t code = fj_link_name(u->handle, (const uint8_t *)"F", 1);
    if (!fault && !code) code = (formatted ? fj_link_open_formatted : fj_link_open_unformatted)(u->handle, bytes, found->st_size);
    free(bytes);
    return fault ? fault : answer(code);
}

/* Takes a free unit for a file; 7: the file is connected to another, 9: none is free. */
static int32_t take(const struct stat *found, struct unit **taken) {
    int32_t code = 9;
    pthread_mutex_lock(&table);
    for (int k = 0; k < LK_UNITS && code != 7; k++) {
        struct unit *u = &units[k];
        if (!u->taken && code == 9) { *taken = u; code = 0; }
        if (u->taken && u->device == found->st_dev && u->inode == found->st_ino) code = 7;
    }
    if (!code) {
        (*taken)->taken = 1;
        (*taken)->device = found->st_dev;
        (*taken)->inode = found->st_ino;
    }
    pthread_mutex_unlock(&table);
    return code;
}

/* Ends what OPEN made. */
static void end(struct unit *u) {
    fj_link_end(u->handle);
    close(u->file);
    free(u->path);
    u->is_open = 0;
    pthread_mutex_lock(&table);
    u->taken = 0;
    pthread_mutex_unlock(&table);
}

static void close_all(void) {
    char text[200];
    for (int k = 1; k <= LK_UNITS; k++) {
        int32_t number = k, code = lk_close(&number);
        lk_message(code, text, sizeof text);
        if (code) fprintf(stderr, "lukhtame: at the end of the program: %s\n", text);
    }
}

static pthread_once_t once = PTHREAD_ONCE_INIT;
static void at_end(void) { atexit(close_all); }

int32_t lk_open(const char *path, const char *form, int32_t *number) {
    int is_fixed, formatted = !strcasecmp(form, "FORMATTED");
    struct stat found;
    struct unit *u = NULL;
    *number = 0;
    if (!formatted && strcasecmp(form, "UNFORMATTED")) return LK_NO_TEXT;
    if (!*path) return 3;
    int file = file_of(path, &is_fixed);
    if (file < 0) return failed();
    int32_t code = fstat(file, &found) ? failed() : !S_ISREG(found.st_mode) ? LK_SYSTEM + EINVAL : found.st_size > LK_FILE ? 27 : 0;
    char *kept = strdup(path);
    if (!code && !kept) code = LK_NO_MEMORY;
    if (!code) code = take(&found, &u);
    if (code) {
        close(file);
        free(kept);
        return code;
    }
    pthread_once(&once, at_end);
    lock(u);
    u->file = file;
    u->path = kept;
    u->is_fixed = is_fixed;
    u->is_closed = u->is_changed = 0;
    u->first = NULL;
    u->last = &u->first;
    fj_link_begin(u->handle);
    code = open_over(u, &found, formatted);
    if (code) end(u);
    else {
        u->is_open = 1;
        start_worker(u);
        *number = u - units + 1;
    }
    pthread_mutex_unlock(&u->lock);
    return code;
}

/* ---- READ and WRITE ---- */

int32_t lk_write(int32_t number, const char *format, enum lk_kind kind, const void *values, size_t count, int32_t *id) {
    struct unit *u = locked(number);
    if (!u) return 1;
    if (u->is_fixed) return unlocked(u, LK_SYSTEM + EACCES);
    uint32_t code = u->is_closed ? LK_UNORDERED : fj_link_format(u->handle, (const uint8_t *)format, strlen(format));
    if (!code) code = kind == LK_INTEGER4 ? fj_link_write_4(u->handle, values, count) : fj_link_write_8(u->handle, values, count);
    if (!code) {
        u->is_changed = 1;
        *id = fj_link_last(u->handle);
    }
    return unlocked(u, answer(code));
}

int32_t lk_read(int32_t number, const char *format, enum lk_kind kind, void *values, size_t count, int32_t *id) {
    if (count > LK_ARRAY) return LK_UNORDERED;
    struct reading *r = malloc(sizeof *r);
    int64_t *room = kind == LK_INTEGER4 ? malloc((count + 1) * sizeof *room) : values;
    struct unit *u = r && room ? locked(number) : NULL;
    uint32_t code = !r || !room ? LK_NO_MEMORY : !u ? 1 : u->is_closed ? LK_UNORDERED : fj_link_format(u->handle, (const uint8_t *)format, strlen(format));
    if (!code) code = (kind == LK_INTEGER4 ? fj_link_read_4 : fj_link_read_8)(u->handle, count);
    if (code) {
        if (room != values) free(room);
        free(r);
        return u ? unlocked(u, answer(code)) : (int32_t)code;
    }
    *r = (struct reading){NULL, fj_link_last(u->handle), kind, values, count, room};
    *id = r->id;
    *u->last = r;
    u->last = &r->next;
    return unlocked(u, 0);
}

/* ---- WAIT ---- */

/* The array of a READ that was told gets its values, where it read them. */
static void define_one(struct unit *u, struct reading *r) {
    if (fj_link_values(u->handle, r->id, r->room, r->count) && r->kind == LK_INTEGER4)
        for (size_t k = 0; k < r->count; k++) ((int32_t *)r->values)[k] = r->room[k];
    if (r->kind == LK_INTEGER4) free(r->room);
}

/* The same of one or of all. */
static void define(struct unit *u, uint32_t id, int all) {
    struct reading **at = &u->first;
    while (*at) {
        struct reading *r = *at;
        if (!all && r->id != id) { at = &r->next; continue; }
        define_one(u, r);
        *at = r->next;
        free(r);
        if (!all) break;
    }
    if (!*at) u->last = at;
}

/* Where a transfer met an error or the end of the file, all others are told with it. */
static uint32_t wait_for(struct unit *u, uint32_t id) {
    uint32_t code = id ? fj_link_wait_one(u->handle, id) : fj_link_wait_all(u->handle);
    if (code < FJ_LINK_UNORDERED) define(u, id, !id || (code && code != 257));
    return code;
}

int32_t lk_wait(int32_t number, int32_t id) {
    struct unit *u = locked(number);
    if (!u) return id ? 1 : 0;
    return unlocked(u, id < 0 || u->is_closed ? LK_UNORDERED : answer(wait_for(u, id)));
}

/* ---- CLOSE ---- */

int32_t lk_close(int32_t *number) {
    struct unit *u = locked(*number);
    if (!u) return 0;
    if (!u->is_closed) {
        u->told = wait_for(u, 0);
        uint32_t code = u->told >= FJ_LINK_UNORDERED ? u->told : fj_link_close(u->handle);
        if (code) return unlocked(u, answer(code));
        u->is_closed = 1;
    }
    int32_t fault = put_file(u);
    if (fault) return unlocked(u, fault);
    end(u);
    *number = 0;
    return unlocked(u, answer(u->told));
}

void lk_message(int32_t code, char *text, size_t room) {
    static const char *const own[] = {
        "a call out of order, or no transfer with that identifier is pending", "memory was refused", "a word or a format that is none", "a READ into an array with gaps"};
    if (code > LK_SYSTEM) snprintf(text, room, "%s", strerror(code - LK_SYSTEM));
    else if (code >= LK_UNORDERED) snprintf(text, room, "%s", code <= LK_NOT_HERE ? own[code - LK_UNORDERED] : "");
    else snprintf(text, room, code == -1 ? "the end of the file" : code == -2 ? "the end of a record" : "condition %d of docs/DECKS.md", code);
}
