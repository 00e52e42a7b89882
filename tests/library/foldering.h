/* What the tests of folders share: a folder for each case, what its files take, and processes that end. */
#ifndef FOLDERING_H
#define FOLDERING_H

#include <errno.h>
#include <fcntl.h>
#include <sys/stat.h>
#include <sys/wait.h>
#include <unistd.h>

#include "wanting.h"

enum { PATH = 4096, TEXT = 512 };

/* Where the folders of this process are. */
static char place[PATH / 2];
static char message[TEXT];

static inline const char *path_of(const char *name) {
    static char path[PATH];
    snprintf(path, sizeof path, "%s/%s", place, name);
    return path;
}

/* The folder of a case, and a file of it. */
static inline const char *folder(void) {
    static char path[PATH];
    snprintf(path, sizeof path, "%s/rows", place);
    return path;
}

static inline const char *file(const char *name) {
    static char path[PATH];
    snprintf(path, sizeof path, "%s/rows/%s", place, name);
    return path;
}

static inline void make_place(void) {
    const char *above = getenv("TMPDIR");
    snprintf(place, sizeof place, "%s/rowanspan-XXXXXX", above && *above ? above : "/tmp");
    if (!mkdtemp(place)) {
        perror(place);
        exit(1);
    }
}

static inline void remove_all(const char *what) {
    char command[PATH + 16];
    snprintf(command, sizeof command, "rm -rf '%s'", what);
    WANT_SAME(system(command), 0);
}

/* Begins a case without a folder. */
static inline void begins_anew(void) {
    remove_all(folder());
    begins();
}

/* Opens an index over the folder of the case. */
static inline rowanspan *opened_in(uint64_t columns, uint64_t checkpoint) {
    rowanspan *index = NULL;
    rowanspan_status status =
        rowanspan_open_folder(&index, folder(), columns, 4096, 0, checkpoint, message, sizeof message);
    WANT_SAME(status, ROWANSPAN_OK);
    if (!index) {
        printf("%s: %s: %s\n", folder(), rowanspan_status_text(status), message);
        exit(1);
    }
    WANT(message[0] == 0);
    return index;
}

/* Wants that the folder isn't opened, for this reason, which the message has. */
static inline void want_unopened(const char *path, uint64_t columns, rowanspan_status wanted, const char *said) {
    static char other;
    rowanspan *index = (rowanspan *)&other;
    memset(message, 'x', sizeof message);
    WANT_SAME(rowanspan_open_folder(&index, path, columns, 4096, 0, 0, message, sizeof message), wanted);
    WANT(index == NULL);
    WANT(memchr(message, 0, sizeof message) != NULL);
    if (!strstr(message, said)) {
        printf("it says '%s', and not '%s'\n", message, said);
        WANT(!"it says so");
    }
}

/* How many bytes of a file aren't zeros at its end. */
static inline size_t used_of(const char *name) {
    int opened = open(file(name), O_RDONLY);
    struct stat status;
    size_t size = 0;
    char *bytes;
    if (opened < 0 || fstat(opened, &status) != 0) {
        return 0;
    }
    bytes = malloc((size_t)status.st_size + 1);
    if (bytes && read(opened, bytes, (size_t)status.st_size) == status.st_size) {
        for (size = (size_t)status.st_size; size > 0 && bytes[size - 1] == 0; size--) {
        }
    }
    free(bytes);
    close(opened);
    return size;
}

static inline size_t used(void) {
    return used_of("even-wal") + used_of("odd-wal");
}

/* How many files this process has open. */
static inline int open_files(void) {
    int count = 0, i;
    for (i = 0; i < 256; i++) {
        count += fcntl(i, F_GETFD) >= 0;
    }
    return count;
}

static inline void write_file(const char *name, const void *bytes, size_t size) {
    int opened = open(file(name), O_WRONLY | O_CREAT | O_TRUNC, 0666);
    WANT(opened >= 0);
    WANT(write(opened, bytes, size) == (ssize_t)size);
    close(opened);
}

/* Runs a part in a process of its own, which ends without closing anything. Returns what the part returned. */
static inline int in_a_process(int (*part)(void)) {
    int status = 0;
    pid_t child;
    fflush(stdout);
    child = fork();
    if (child == 0) {
        _exit(part());
    }
    WANT(child > 0 && waitpid(child, &status, 0) == child);
    WANT(WIFEXITED(status));
    return WEXITSTATUS(status);
}

static inline void put_row(rowanspan *index, const char *key, const char *text) {
    WANT_SAME(put_text(index, key, text, NULL), ROWANSPAN_OK);
}

/* Wants the row of a key: its version and its first column. */
static inline void want_row(const rowanspan *index, const char *key, uint64_t version, const char *text) {
    uint8_t room[ROWANSPAN_MAX_COLUMNS * (8 + ROWANSPAN_MAX_COLUMN_BYTES) + 16];
    uint64_t length = 0;
    struct rowanspan_reader reader;
    struct rowanspan_row row;
    WANT_SAME(rowanspan_get(index, key, strlen(key), NULL, 0, room, sizeof room, &length), ROWANSPAN_OK);
    reader = rowanspan_reader(room, length);
    row = rowanspan_read_row(&reader);
    WANT_SAME(row.version, version);
    WANT(is_text(rowanspan_read_bytes(&row.columns), text));
}

static inline void want_none(const rowanspan *index, const char *key) {
    WANT_SAME(rowanspan_get(index, key, strlen(key), NULL, 0, NULL, 0, NULL), ROWANSPAN_ABSENT);
}

static inline int all_told_of_folders(void) {
    remove_all(place);
    return all_told();
}

#endif
