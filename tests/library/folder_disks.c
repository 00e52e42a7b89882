/* An index with a folder on a disk that is full, and one whose files can't grow. */
#include <signal.h>
#include <sys/mount.h>
#include <sys/resource.h>

#include "foldering.h"

/* (a row takes some 1,100 bytes) */
enum { COLUMNS = 16, MOST_PUTS = 20000, MIB = 1 << 20 };

static rowanspan_status put_greatest(rowanspan *index, int number, uint64_t *commit) {
    static const uint8_t bytes[ROWANSPAN_MAX_COLUMN_BYTES] = {1};
    struct rowanspan_set sets[COLUMNS];
    char key[16];
    int i;
    for (i = 0; i < COLUMNS; i++) {
        sets[i] = rowanspan_set((uint8_t)i, bytes, sizeof bytes);
    }
    snprintf(key, sizeof key, "%06d", number);
    return rowanspan_put(index, key, strlen(key), sets, COLUMNS, commit);
}

static bool has_row(const rowanspan *index, int number) {
    char key[16];
    snprintf(key, sizeof key, "%06d", number);
    return rowanspan_get(index, key, strlen(key), NULL, 0, NULL, 0, NULL) == ROWANSPAN_NO_ROOM;
}

/* Puts rows until a commit can't be written. Returns how many rows there are then, the last of them in memory alone. */
static int put_until_unwritten(rowanspan *index, int first) {
    uint64_t commit = 0;
    rowanspan_status status = ROWANSPAN_OK;
    int number = first;
    while (status == ROWANSPAN_OK && number < MOST_PUTS) {
        status = put_greatest(index, number++, &commit);
        WANT_SAME(commit, number);
    }
    WANT_SAME(status, ROWANSPAN_NOT_WRITTEN);
    WANT_SAME(rowanspan_commits(index), number);
    WANT(has_row(index, number - 1));
    return number;
}

/* No row can be changed, for this reason, and all can be read. */
static void want_refused(rowanspan *index, int rows, rowanspan_status wanted) {
    uint64_t number = 99, view = 0, durable = rowanspan_durable(index);
    struct rowanspan_totals totals;
    int i;
    for (i = 0; i < 3; i++) {
        WANT_SAME(put_greatest(index, rows, &number), wanted);
        WANT_SAME(number, 0);
        number = 99;
        WANT_SAME(rowanspan_put_if(index, "000000", 6, NULL, 0, 1, &number), wanted);
        WANT_SAME(number, 0);
        WANT_SAME(rowanspan_remove(index, "000000", 6, NULL), wanted);
        number = 99;
        WANT_SAME(rowanspan_sync(index, &number), wanted);
        WANT_SAME(number, 0);
        WANT_SAME(rowanspan_checkpoint(index), wanted);
    }
    WANT_SAME(rowanspan_commits(index), rows);
    WANT_SAME(rowanspan_len(index), rows);
    WANT(has_row(index, 0) && has_row(index, rows - 1) && !has_row(index, rows));
    WANT_SAME(rowanspan_build_prefix(index, NULL, 0, rowanspan_any(), &view), ROWANSPAN_OK);
    WANT_SAME(rowanspan_keep_views(index, NULL), ROWANSPAN_OK);
    WANT_SAME(rowanspan_totals(index, view, (uint64_t)rows, &totals), ROWANSPAN_OK);
    WANT_SAME(totals.row_count, rows);
    WANT_SAME(rowanspan_drop(index, view), ROWANSPAN_OK);
    WANT_SAME(rowanspan_durable(index), durable);
}

/* Wants the first rows of a folder: `least` of them to `most`. */
static void want_front(int least, int most) {
    rowanspan *index = opened_in(COLUMNS, 0);
    int rows = (int)rowanspan_len(index), i;
    WANT_SAME(rowanspan_commits(index), rows);
    WANT(least <= rows && rows <= most);
    for (i = 0; i < rows; i++) {
        WANT(has_row(index, i));
    }
    rowanspan_close(index);
}

/* ---- files that can't grow */

static void limit_files(rlim_t size) {
    struct rlimit limit;
    WANT(getrlimit(RLIMIT_FSIZE, &limit) == 0);
    limit.rlim_cur = size < limit.rlim_max ? size : limit.rlim_max;
    WANT(setrlimit(RLIMIT_FSIZE, &limit) == 0);
}

/* Zeros can't be written ahead of the log, for another reason than a full disk. Commits are refused until they can. */
static void disk_failed(void) {
    rowanspan *index;
    uint64_t durable = 0;
    int rows;
    begins_anew();
    signal(SIGXFSZ, SIG_IGN);
    index = opened_in(COLUMNS, 0);
    WANT_SAME(put_greatest(index, 0, NULL), ROWANSPAN_OK);
    WANT_SAME(rowanspan_sync(index, &durable), ROWANSPAN_OK);
    limit_files(2 * MIB + 12345);
    rows = put_until_unwritten(index, 1);
    WANT(rows > 500);
    want_refused(index, rows, ROWANSPAN_DISK_FAILED);
    limit_files(RLIM_INFINITY);
    WANT_SAME(put_greatest(index, rows++, NULL), ROWANSPAN_OK);
    WANT_SAME(rowanspan_sync(index, &durable), ROWANSPAN_OK);
    WANT_SAME(durable, rows);
    rowanspan_close(index);
    want_front(rows, rows);
    ends("disk_failed");
}

/* ---- full disks */

static void full_disk(void) {
    static char zeros[MIB];
    rowanspan *index;
    uint64_t durable = 0;
    int rows, more, i;
    begins_anew();
    WANT(mkdir(folder(), 0777) == 0);
    if (mount("tmpfs", folder(), "tmpfs", 0, "size=8m") != 0) {
        printf("skipped full_disk: no file system can be mounted: %s\n", strerror(errno));
        return;
    }
    for (i = 0; i < 4; i++) {
        char name[32];
        snprintf(name, sizeof name, "ballast%d", i);
        write_file(name, zeros, sizeof zeros);
    }
    index = opened_in(COLUMNS, 0);
    WANT_SAME(put_greatest(index, 0, NULL), ROWANSPAN_OK);
    WANT_SAME(rowanspan_sync(index, &durable), ROWANSPAN_OK);
    rows = put_until_unwritten(index, 1);
    WANT(rows > 500);
    want_refused(index, rows, ROWANSPAN_DISK_FULL);
    WANT_SAME(unlink(file("ballast0")), 0);
    WANT_SAME(unlink(file("ballast1")), 0);
    WANT_SAME(put_greatest(index, rows++, NULL), ROWANSPAN_OK);
    WANT_SAME(rowanspan_sync(index, &durable), ROWANSPAN_OK);
    WANT_SAME(durable, rows);
    more = put_until_unwritten(index, rows);
    WANT(more > rows + 500);
    want_refused(index, more, ROWANSPAN_DISK_FULL);
    /* a sync writes what is lacking, and so does a close */
    WANT_SAME(unlink(file("ballast2")), 0);
    WANT_SAME(rowanspan_sync(index, &durable), ROWANSPAN_OK);
    WANT_SAME(durable, more);
    rows = put_until_unwritten(index, more);
    WANT_SAME(unlink(file("ballast3")), 0);
    rowanspan_close(index);
    want_front(rows, rows);
    WANT_SAME(umount(folder()), 0);
    ends("full_disk");
}

/* Mounts a disk of 4 MiB. */
static bool mounts_disk(const char *name) {
    WANT(mkdir(path_of("disk"), 0777) == 0);
    if (mount("tmpfs", path_of("disk"), "tmpfs", 0, "size=4m") != 0) {
        printf("skipped %s: no file system can be mounted: %s\n", name, strerror(errno));
        return false;
    }
    return true;
}

/* Takes the room that the disk has. */
static void fill_disk(void) {
    static char zeros[4 * MIB];
    int ballast = open(path_of("disk/ballast"), O_WRONLY | O_CREAT, 0666);
    while (write(ballast, zeros, sizeof zeros) > 0) {
    }
    close(ballast);
}

/* An index isn't opened on a full disk, and is once there is room. */
static void opened_on_a_full_disk(void) {
    rowanspan *index;
    begins_anew();
    if (!mounts_disk("opened_on_a_full_disk")) {
        return;
    }
    fill_disk();
    WANT_SAME(rowanspan_open_folder(&index, path_of("disk/rows"), 1, 1, 0, 0, message, sizeof message),
              ROWANSPAN_DISK_FULL);
    WANT(index == NULL && strstr(message, "space"));
    WANT_SAME(unlink(path_of("disk/ballast")), 0);
    WANT_SAME(rowanspan_open_folder(&index, path_of("disk/rows"), 1, 1, 0, 0, message, sizeof message), ROWANSPAN_OK);
    put_row(index, "a", "v");
    rowanspan_close(index);
    WANT_SAME(umount(path_of("disk")), 0);
    WANT_SAME(rmdir(path_of("disk")), 0);
    ends("opened_on_a_full_disk");
}

/* A checkpoint for which there is no room leaves the log where it is, and is made once there is room. */
static void checkpoint_on_a_full_disk(void) {
    rowanspan *index;
    begins_anew();
    if (!mounts_disk("checkpoint_on_a_full_disk")) {
        return;
    }
    WANT_SAME(rowanspan_open_folder(&index, path_of("disk/rows"), 1, 1, 0, 0, message, sizeof message), ROWANSPAN_OK);
    put_row(index, "a", "v");
    fill_disk();
    WANT_SAME(rowanspan_checkpoint(index), ROWANSPAN_DISK_FULL);
    put_row(index, "b", "v");
    WANT_SAME(rowanspan_checkpoint(index), ROWANSPAN_DISK_FULL);
    WANT_SAME(unlink(path_of("disk/ballast")), 0);
    WANT_SAME(rowanspan_checkpoint(index), ROWANSPAN_OK);
    WANT_SAME(rowanspan_durable(index), 2);
    put_row(index, "c", "v");
    rowanspan_close(index);
    WANT_SAME(rowanspan_open_folder(&index, path_of("disk/rows"), 1, 1, 0, 0, message, sizeof message), ROWANSPAN_OK);
    WANT_SAME(rowanspan_len(index), 3);
    rowanspan_close(index);
    WANT_SAME(umount(path_of("disk")), 0);
    WANT_SAME(rmdir(path_of("disk")), 0);
    ends("checkpoint_on_a_full_disk");
}

int main(void) {
    make_place();
    disk_failed();
    full_disk();
    opened_on_a_full_disk();
    checkpoint_on_a_full_disk();
    return all_told_of_folders();
}
