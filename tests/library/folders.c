/* An index whose rows are in a folder: what survives a close or the end of a process, and why a folder isn't opened. */
#include <signal.h>

#include "foldering.h"

/* ---- what survives */

static void rows_survive(void) {
    rowanspan *index;
    struct rowanspan_set sets[2] = {rowanspan_set(0, "red", 3), rowanspan_set(1, "sweet", 5)};
    uint64_t commit = 0;
    uint8_t room[64];
    begins_anew();
    index = opened_in(2, ROWANSPAN_CHECKPOINT);
    WANT_SAME(rowanspan_commits(index), 0);
    WANT_SAME(rowanspan_put(index, "apple", 5, sets, 2, &commit), ROWANSPAN_OK);
    WANT_SAME(commit, 1);
    put_row(index, "pear", "green");
    put_row(index, "fig", "blue");
    WANT_SAME(rowanspan_remove(index, "pear", 4, &commit), ROWANSPAN_OK);
    WANT_SAME(commit, 4);
    WANT_SAME(rowanspan_put_if(index, "fig", 3, sets, 1, 3, &commit), ROWANSPAN_OK);
    rowanspan_close(index);

    index = opened_in(2, ROWANSPAN_CHECKPOINT);
    WANT_SAME(rowanspan_commits(index), 5);
    WANT_SAME(rowanspan_len(index), 2);
    WANT_SAME(rowanspan_columns(index), 2);
    WANT_SAME(rowanspan_durable(index), 5);
    want_row(index, "apple", 1, "red");
    WANT_SAME(rowanspan_get_column(index, "apple", 5, 1, room, sizeof room, NULL), ROWANSPAN_OK);
    WANT(memcmp(room, "sweet", 5) == 0);
    want_row(index, "fig", 5, "red");
    want_none(index, "pear");
    WANT_SAME(rowanspan_put_if(index, "fig", 3, sets, 1, 3, &commit), ROWANSPAN_OTHER_VERSION);
    WANT_SAME(commit, 5);
    WANT_SAME(put_text(index, "pear", "brown", &commit), ROWANSPAN_OK);
    WANT_SAME(commit, 6);
    rowanspan_close(index);

    index = opened_in(2, 0);
    WANT_SAME(rowanspan_commits(index), 6);
    want_row(index, "pear", 6, "brown");
    rowanspan_close(index);
    ends("rows_survive");
}

/* The longest key, the empty one, and all columns with all bytes. */
static void greatest_rows(void) {
    static char key[ROWANSPAN_MAX_KEY_BYTES];
    struct rowanspan_set sets[ROWANSPAN_MAX_COLUMNS];
    uint8_t bytes[ROWANSPAN_MAX_COLUMN_BYTES], room[2048], again[2048];
    uint64_t length = 0, length_again = 0;
    rowanspan *index;
    int i;
    begins_anew();
    memset(bytes, 0, sizeof bytes);
    memset(key, 0xff, sizeof key);
    for (i = 0; i < ROWANSPAN_MAX_COLUMNS; i++) {
        sets[i] = rowanspan_set((uint8_t)i, bytes, sizeof bytes);
    }
    index = opened_in(ROWANSPAN_MAX_COLUMNS, 0);
    WANT_SAME(rowanspan_put(index, key, sizeof key, sets, ROWANSPAN_MAX_COLUMNS, NULL), ROWANSPAN_OK);
    WANT_SAME(rowanspan_put(index, NULL, 0, sets, 1, NULL), ROWANSPAN_OK);
    WANT_SAME(rowanspan_get(index, key, sizeof key, NULL, 0, room, sizeof room, &length), ROWANSPAN_OK);
    rowanspan_close(index);
    index = opened_in(ROWANSPAN_MAX_COLUMNS, 0);
    WANT_SAME(rowanspan_get(index, key, sizeof key, NULL, 0, again, sizeof again, &length_again), ROWANSPAN_OK);
    WANT(length == length_again && memcmp(room, again, (size_t)length) == 0);
    WANT_SAME(rowanspan_get(index, NULL, 0, NULL, 0, again, sizeof again, NULL), ROWANSPAN_OK);
    WANT_SAME(rowanspan_len(index), 2);
    rowanspan_close(index);
    ends("greatest_rows");
}

/* An index without a commit, opened twice. What is refused, or finds no row, writes nothing. */
static void nothing_survives(void) {
    rowanspan *index;
    size_t size;
    begins_anew();
    rowanspan_close(opened_in(1, 0));
    index = opened_in(1, 0);
    WANT_SAME(rowanspan_commits(index), 0);
    WANT_SAME(rowanspan_len(index), 0);
    size = used();
    WANT_SAME(rowanspan_remove(index, "a", 1, NULL), ROWANSPAN_ABSENT);
    WANT_SAME(rowanspan_put_if(index, "a", 1, NULL, 0, 9, NULL), ROWANSPAN_OTHER_VERSION);
    WANT_SAME(rowanspan_put(index, "a", ROWANSPAN_MAX_KEY_BYTES + 1, NULL, 0, NULL), ROWANSPAN_KEY_TOO_LONG);
    WANT_SAME(used(), size);
    WANT_SAME(rowanspan_put(index, "a", 1, NULL, 0, NULL), ROWANSPAN_OK);
    WANT(used() > size);
    rowanspan_close(index);
    rowanspan_close(NULL);
    ends("nothing_survives");
}

enum { PUTS = 2000 };

static const char *key_of_number(int number) {
    static char key[16];
    snprintf(key, sizeof key, "%06d", number);
    return key;
}

/* Puts rows, and ends without a close or a sync. */
static int put_and_end(void) {
    rowanspan *index = opened_in(1, 0);
    int i;
    for (i = 0; i < PUTS; i++) {
        put_row(index, key_of_number(i), "v");
    }
    WANT_SAME(rowanspan_remove(index, key_of_number(7), 6, NULL), ROWANSPAN_OK);
    return wanting_failed;
}

static void ended_without_a_close(void) {
    rowanspan *index;
    begins_anew();
    WANT_SAME(in_a_process(put_and_end), 0);
    index = opened_in(1, 0);
    WANT_SAME(rowanspan_commits(index), PUTS + 1);
    WANT_SAME(rowanspan_len(index), PUTS - 1);
    want_row(index, key_of_number(PUTS - 1), PUTS, "v");
    want_none(index, key_of_number(7));
    WANT_SAME(rowanspan_durable(index), PUTS + 1);
    rowanspan_close(index);
    ends("ended_without_a_close");
}

/* Puts rows without end, and writes the number of each commit to a pipe. */
static void put_and_tell(int to) {
    rowanspan *index = opened_in(1, 20000);
    uint64_t commit = 0;
    int i;
    for (i = 0; wanting_failed == 0; i++) {
        WANT_SAME(put_text(index, key_of_number(i % 500), "v", &commit), ROWANSPAN_OK);
        WANT(write(to, &commit, sizeof commit) == sizeof commit);
    }
}

/* A process that is killed at any moment loses no commit that was returned. */
static void killed(void) {
    uint64_t last = 0;
    int round;
    begins_anew();
    for (round = 0; round < 10; round++) {
        uint64_t commit, count = 0, wanted = 200 + 97 * (uint64_t)round;
        int ends_of_pipe[2], status;
        rowanspan *index;
        pid_t child;
        WANT(pipe(ends_of_pipe) == 0);
        fflush(stdout);
        child = fork();
        if (child == 0) {
            close(ends_of_pipe[0]);
            put_and_tell(ends_of_pipe[1]);
            _exit(1);
        }
        close(ends_of_pipe[1]);
        while (read(ends_of_pipe[0], &commit, sizeof commit) == sizeof commit) {
            WANT_SAME(commit, ++last);
            if (++count == wanted) {
                kill(child, SIGKILL);
            }
        }
        close(ends_of_pipe[0]);
        WANT(waitpid(child, &status, 0) == child && WIFSIGNALED(status));
        index = opened_in(1, 20000);
        want_row(index, key_of_number((int)((count - 1) % 500)), last, "v");
        /* (one more may have been written, and not told) */
        WANT(rowanspan_commits(index) == last || rowanspan_commits(index) == last + 1);
        last = rowanspan_commits(index);
        rowanspan_close(index);
    }
    ends("killed");
}

/* ---- why a folder isn't opened */

static int open_a_busy_one(void) {
    want_unopened(folder(), 1, ROWANSPAN_FOLDER_BUSY, "in use");
    return wanting_failed;
}

/* One index has a folder at a time, in this process and in all. The attempt of another changes nothing of that. */
static void busy(void) {
    rowanspan *index;
    int i;
    begins_anew();
    index = opened_in(1, 0);
    put_row(index, "a", "v");
    for (i = 0; i < 3; i++) {
        WANT_SAME(in_a_process(open_a_busy_one), 0);
        WANT_SAME(open_a_busy_one(), 0);
    }
    put_row(index, "b", "w");
    rowanspan_close(index);
    index = opened_in(1, 0);
    want_row(index, "b", 2, "w");
    rowanspan_close(index);
    ends("busy");
}

static void damaged(void) {
    static const char *const names[] = {"even-wal", "odd-wal"};
    static const char garbage[4096] = "This is no log, but a text that somebody has put there.";
    rowanspan *index;
    int i;
    begins_anew();
    index = opened_in(2, 0);
    put_row(index, "a", "v");
    rowanspan_close(index);
    want_unopened(folder(), 1, ROWANSPAN_FOLDER_DAMAGED, "even-wal");
    want_unopened(folder(), 3, ROWANSPAN_FOLDER_DAMAGED, "even-wal");
    index = opened_in(2, 0);
    want_row(index, "a", 1, "v");
    rowanspan_close(index);
    for (i = 0; i < 2; i++) {
        char again[sizeof garbage];
        int opened;
        remove_all(folder());
        WANT(mkdir(folder(), 0777) == 0);
        write_file(names[i], garbage, sizeof garbage);
        want_unopened(folder(), 1, ROWANSPAN_FOLDER_DAMAGED, names[i]);
        opened = open(file(names[i]), O_RDONLY);
        WANT(read(opened, again, sizeof again) == sizeof again && memcmp(again, garbage, sizeof again) == 0);
        close(opened);
    }
    ends("damaged");
}

static void failed(void) {
    begins_anew();
    want_unopened(path_of("none/rows"), 1, ROWANSPAN_FOLDER_FAILED, "");
    WANT(message[0] != 0);
    want_unopened("/dev/null/rows", 1, ROWANSPAN_FOLDER_FAILED, "");
    WANT(message[0] != 0);
    want_unopened("", 1, ROWANSPAN_FOLDER_FAILED, "");
    /* a file, where the folder is to be */
    close(open(folder(), O_WRONLY | O_CREAT, 0666));
    want_unopened(folder(), 1, ROWANSPAN_FOLDER_FAILED, "");
    ends("failed");
}

/* Limits are answered before a folder is made. */
static void bad_options(void) {
    struct stat status;
    rowanspan *index;
    begins_anew();
    want_unopened(folder(), 0, ROWANSPAN_BAD_COLUMN, "");
    want_unopened(folder(), 17, ROWANSPAN_BAD_COLUMN, "");
    WANT_SAME(rowanspan_open_folder(&index, folder(), 1, 0, 0, 0, NULL, 0), ROWANSPAN_BAD_LIMIT);
    WANT(index == NULL);
    WANT_SAME(rowanspan_open_folder(&index, folder(), 1, 1, 65537, 0, NULL, 0), ROWANSPAN_BAD_LIMIT);
    WANT(stat(folder(), &status) != 0);
    ends("bad_options");
}

/* A message is cut to the room that there is for it. */
static void messages(void) {
    char whole[TEXT], room[TEXT];
    rowanspan *index;
    size_t length, size;
    begins_anew();
    want_unopened("/dev/null/rows", 1, ROWANSPAN_FOLDER_FAILED, "");
    memcpy(whole, message, sizeof whole);
    length = strlen(whole);
    WANT(length > 10 && length < sizeof whole - 1);
    for (size = 0; size < length + 3; size++) {
        memset(room, 'x', sizeof room);
        WANT_SAME(rowanspan_open_folder(&index, "/dev/null/rows", 1, 1, 0, 0, room, size), ROWANSPAN_FOLDER_FAILED);
        WANT(room[size] == 'x');
        WANT(size == 0 || (strlen(room) == (size - 1 < length ? size - 1 : length)));
        WANT(size == 0 || memcmp(room, whole, strlen(room)) == 0);
    }
    WANT_SAME(rowanspan_open_folder(&index, "/dev/null/rows", 1, 1, 0, 0, NULL, 9), ROWANSPAN_FOLDER_FAILED);
    ends("messages");
}

/* A link in the place of a file isn't followed. */
static void links(void) {
    begins_anew();
    WANT(mkdir(folder(), 0777) == 0);
    WANT(symlink("/dev/null", file("odd-wal")) == 0);
    want_unopened(folder(), 1, ROWANSPAN_FOLDER_FAILED, "");
    WANT(message[0] != 0);
    ends("links");
}

/* A program that this one has started doesn't have the folder, also if it has its other files. */
static void another_program(void) {
    rowanspan *index;
    pid_t child;
    begins_anew();
    index = opened_in(1, 0);
    put_row(index, "a", "v");
    fflush(stdout);
    child = fork();
    if (child == 0) {
        execlp("sleep", "sleep", "60", (char *)NULL);
        _exit(127);
    }
    rowanspan_close(index);
    /* (until the child has become the other program, it has the files) */
    while (rowanspan_open_folder(&index, folder(), 1, 1, 0, 0, NULL, 0) == ROWANSPAN_FOLDER_BUSY
           && waitpid(child, NULL, WNOHANG) == 0) {
        usleep(1000);
    }
    WANT(index != NULL);
    WANT_SAME(waitpid(child, NULL, WNOHANG), 0);
    rowanspan_close(index);
    kill(child, SIGKILL);
    waitpid(child, NULL, 0);
    ends("another_program");
}

/* Two folders at once, one of them by a path with a slash at its end and without its name before. */
static void two_folders(void) {
    rowanspan *one, *other;
    char before[PATH];
    begins_anew();
    WANT(getcwd(before, sizeof before) != NULL && chdir(place) == 0);
    one = opened_in(1, 0);
    WANT_SAME(rowanspan_open_folder(&other, "other/", 1, 4096, 0, 0, NULL, 0), ROWANSPAN_OK);
    put_row(one, "a", "v");
    put_row(other, "b", "w");
    WANT_SAME(rowanspan_commits(one), 1);
    rowanspan_close(one);
    rowanspan_close(other);
    WANT_SAME(rowanspan_open_folder(&other, "./other", 1, 4096, 0, 0, NULL, 0), ROWANSPAN_OK);
    want_row(other, "b", 1, "w");
    want_none(other, "a");
    rowanspan_close(other);
    remove_all(path_of("other"));
    WANT(chdir(before) == 0);
    ends("two_folders");
}

/* ---- numbers */

static void syncs(void) {
    rowanspan *index;
    uint64_t durable = 99;
    int i;
    begins_anew();
    index = opened_in(1, 0);
    WANT_SAME(rowanspan_sync(index, &durable), ROWANSPAN_OK);
    WANT_SAME(durable, 0);
    for (i = 0; i < 10; i++) {
        put_row(index, key_of_number(i), "v");
    }
    WANT_SAME(rowanspan_durable(index), 0);
    WANT_SAME(rowanspan_sync(index, &durable), ROWANSPAN_OK);
    WANT_SAME(durable, 10);
    WANT_SAME(rowanspan_durable(index), 10);
    put_row(index, "a", "v");
    WANT_SAME(rowanspan_durable(index), 10);
    WANT_SAME(rowanspan_sync(index, NULL), ROWANSPAN_OK);
    WANT_SAME(rowanspan_durable(index), 11);
    rowanspan_close(index);
    ends("syncs");
}

static void no_folder(void) {
    rowanspan *index = opened(1, 16, 0);
    uint64_t durable = 99;
    begins();
    put_row(index, "a", "v");
    WANT_SAME(rowanspan_sync(index, &durable), ROWANSPAN_NO_FOLDER);
    WANT_SAME(durable, 0);
    WANT_SAME(rowanspan_sync(index, NULL), ROWANSPAN_NO_FOLDER);
    WANT_SAME(rowanspan_checkpoint(index), ROWANSPAN_NO_FOLDER);
    WANT_SAME(rowanspan_durable(index), 0);
    WANT_SAME(rowanspan_commits(index), 1);
    rowanspan_close(index);
    ends("no_folder");
}

/* ---- checkpoints */

/* A checkpoint leaves as many bytes as the rows take, and makes all commits durable. */
static void whole_checkpoints(void) {
    rowanspan *index;
    size_t before;
    int i, round;
    begins_anew();
    index = opened_in(1, 0);
    WANT_SAME(rowanspan_checkpoint(index), ROWANSPAN_OK);
    for (round = 0; round < 20; round++) {
        for (i = 0; i < 600; i++) {
            put_row(index, key_of_number(i), "some text");
        }
    }
    before = used();
    WANT(before > 12000 * 10);
    WANT_SAME(rowanspan_durable(index), 0);
    WANT_SAME(rowanspan_checkpoint(index), ROWANSPAN_OK);
    WANT_SAME(rowanspan_durable(index), 12000);
    WANT_SAME(rowanspan_commits(index), 12000);
    /* (the file before is emptied when it is used again) */
    WANT_SAME(rowanspan_checkpoint(index), ROWANSPAN_OK);
    WANT(used() < before / 4);
    put_row(index, "a", "v");
    rowanspan_close(index);
    index = opened_in(1, 0);
    WANT_SAME(rowanspan_commits(index), 12001);
    WANT_SAME(rowanspan_len(index), 601);
    for (i = 0; i < 600; i++) {
        want_row(index, key_of_number(i), 11401 + (uint64_t)i, "some text");
    }
    WANT_SAME(rowanspan_checkpoint(index), ROWANSPAN_OK);
    rowanspan_close(index);
    index = opened_in(1, 0);
    want_row(index, "a", 12001, "v");
    WANT_SAME(rowanspan_len(index), 601);
    rowanspan_close(index);
    ends("whole_checkpoints");
}

/* ---- views, cursors and the feed */

static void want_totals(const rowanspan *index, uint64_t view, uint64_t commit, uint64_t count) {
    struct rowanspan_totals totals;
    WANT_SAME(rowanspan_totals(index, view, 0, &totals), ROWANSPAN_OK);
    WANT_SAME(totals.commit, commit);
    WANT_SAME(totals.row_count, count);
}

static void views_and_cursors(void) {
    rowanspan *index;
    rowanspan_cursor *cursor;
    struct rowanspan_pair pair;
    uint64_t view = 0, number = 99;
    uint8_t room[4096];
    int i;
    begins_anew();
    index = opened_in(1, 2000);
    put_row(index, "a1", "v");
    WANT_SAME(rowanspan_build_prefix(index, "a", 1, rowanspan_any(), &view), ROWANSPAN_OK);
    for (i = 2; i < 9; i++) {
        char key[3] = {'a', (char)('0' + i), 0};
        put_row(index, key, "v");
    }
    want_totals(index, view, 1, 1);
    WANT_SAME(rowanspan_apply(index, view, &number), ROWANSPAN_OK);
    WANT_SAME(number, 2);
    WANT_SAME(rowanspan_keep_views(index, NULL), ROWANSPAN_OK);
    want_totals(index, view, 8, 8);
    WANT_SAME(rowanspan_feed(index, 6, 9, room, sizeof room, &number), ROWANSPAN_OK);
    rowanspan_close(index);

    index = opened_in(1, 2000);
    WANT_SAME(rowanspan_drop(index, view), ROWANSPAN_NO_SUCH_VIEW);
    WANT_SAME(rowanspan_feed(index, 7, 9, room, sizeof room, &number), ROWANSPAN_BEHIND);
    WANT_SAME(number, 8);
    WANT_SAME(rowanspan_build_prefix(index, "a", 1, rowanspan_any(), &view), ROWANSPAN_OK);
    want_totals(index, view, 8, 8);
    WANT_SAME(rowanspan_remove(index, "a3", 2, NULL), ROWANSPAN_OK);
    WANT_SAME(rowanspan_keep_views(index, NULL), ROWANSPAN_OK);
    want_totals(index, view, 9, 7);
    WANT_SAME(rowanspan_view_cursor_open(index, view, "a4", 2, &cursor), ROWANSPAN_OK);
    for (i = 4; i < 9; i++) {
        WANT_SAME(rowanspan_cursor_next(cursor, &pair), ROWANSPAN_OK);
        WANT_SAME(pair.row.version, i);
    }
    WANT_SAME(rowanspan_cursor_next(cursor, &pair), ROWANSPAN_ABSENT);
    rowanspan_cursor_close(cursor);
    WANT_SAME(rowanspan_drop(index, view), ROWANSPAN_OK);
    rowanspan_close(index);
    ends("views_and_cursors");
}

/* A view that isn't kept up refuses changes, and what was written before survives. */
static void full_feed(void) {
    rowanspan *index = NULL;
    uint64_t view, commit = 0;
    int i;
    begins_anew();
    WANT_SAME(rowanspan_open_folder(&index, folder(), 1, 3, 0, 0, NULL, 0), ROWANSPAN_OK);
    put_row(index, "b", "v");
    WANT_SAME(rowanspan_build_prefix(index, NULL, 0, rowanspan_any(), &view), ROWANSPAN_OK);
    for (i = 0; i < 3; i++) {
        put_row(index, key_of_number(i), "v");
    }
    WANT_SAME(put_text(index, "a", "v", &commit), ROWANSPAN_FEED_FULL);
    WANT_SAME(commit, 1);
    WANT_SAME(rowanspan_keep_views(index, NULL), ROWANSPAN_OK);
    put_row(index, "a", "v");
    rowanspan_close(index);
    index = opened_in(1, 0);
    WANT_SAME(rowanspan_commits(index), 5);
    rowanspan_close(index);
    ends("full_feed");
}

int main(void) {
    int files = open_files();
    make_place();
    rows_survive();
    greatest_rows();
    nothing_survives();
    ended_without_a_close();
    killed();
    busy();
    damaged();
    failed();
    bad_options();
    messages();
    links();
    another_program();
    two_folders();
    syncs();
    no_folder();
    whole_checkpoints();
    views_and_cursors();
    full_feed();
    begins();
    WANT_SAME(open_files(), files);
    ends("all_files_are_closed");
    return all_told_of_folders();
}
