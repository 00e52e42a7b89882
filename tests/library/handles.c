/* How an index is opened and closed, what each status says, and which version is loaded. */
#include "wanting.h"

static void bad_options(void) {
    static const struct {
        uint64_t columns, log_capacity, log_retention;
        rowanspan_status status;
    } options[] = {{0, 1, 0, ROWANSPAN_BAD_COLUMN}, {17, 1, 0, ROWANSPAN_BAD_COLUMN}, {1, 0, 0, ROWANSPAN_BAD_LIMIT},
                   {1, 65537, 0, ROWANSPAN_BAD_LIMIT}, {1, 1, 65537, ROWANSPAN_BAD_LIMIT}};
    size_t i;
    begins();
    for (i = 0; i < sizeof options / sizeof options[0]; i++) {
        static char other;
        rowanspan *index = (rowanspan *)&other;
        WANT_SAME(rowanspan_open(&index, options[i].columns, options[i].log_capacity, options[i].log_retention),
                  options[i].status);
        WANT(index == NULL);
        rowanspan_close(index);
    }
    rowanspan_close(NULL);
    ends("bad_options");
}

/* The calls that read take an index that is const. */
static void want_empty(const rowanspan *index, uint64_t columns) {
    uint8_t room[64];
    uint64_t number = 99;
    WANT_SAME(rowanspan_columns(index), columns);
    WANT_SAME(rowanspan_nodes(index), 2);
    WANT_SAME(rowanspan_commits(index), 0);
    WANT_SAME(rowanspan_len(index), 0);
    WANT_SAME(rowanspan_get(index, "k", 1, NULL, 0, room, sizeof room, &number), ROWANSPAN_ABSENT);
    WANT_SAME(number, 0);
    WANT_SAME(rowanspan_range(index, NULL, 0, 9, NULL, 0, room, sizeof room, &number), ROWANSPAN_OK);
    WANT_SAME(number, 8);
    WANT_SAME(rowanspan_feed(index, 0, 9, room, sizeof room, &number), ROWANSPAN_OK);
    WANT_SAME(number, 8);
    WANT_SAME(rowanspan_view(index, 1, 0, NULL, 0, 9, room, sizeof room, &number), ROWANSPAN_NO_SUCH_VIEW);
    WANT_SAME(number, 0);
}

/* Two indexes are there at once, and each has its own rows. */
static void two_indexes(void) {
    rowanspan *one, *other;
    begins();
    WANT_SAME(rowanspan_open(&one, 16, 65536, 65536), ROWANSPAN_OK);
    WANT_SAME(rowanspan_open(&other, 1, 1, 0), ROWANSPAN_OK);
    WANT(one != NULL && other != NULL && one != other);
    want_empty(one, 16);
    WANT_SAME(put_text(other, "k", "v", NULL), ROWANSPAN_OK);
    want_empty(one, 16);
    rowanspan_close(one);
    WANT_SAME(rowanspan_commits(other), 1);
    WANT_SAME(rowanspan_len(other), 1);
    rowanspan_close(other);
    ends("two_indexes");
}

static const rowanspan_status statuses[] = {
    ROWANSPAN_OK, ROWANSPAN_NO_MEMORY, ROWANSPAN_KEY_TOO_LONG, ROWANSPAN_BAD_COLUMN, ROWANSPAN_COLUMN_TOO_LONG,
    ROWANSPAN_BAD_LIMIT, ROWANSPAN_ARENA_FULL, ROWANSPAN_FEED_FULL, ROWANSPAN_TOO_MANY_VIEWS, ROWANSPAN_NO_SUCH_VIEW,
    ROWANSPAN_BEHIND, ROWANSPAN_BAD_RANGE, ROWANSPAN_SPENT, ROWANSPAN_OTHER_VERSION, ROWANSPAN_ABSENT,
    ROWANSPAN_NO_ROOM, ROWANSPAN_CURRENT, ROWANSPAN_NO_SUCH_TEST, ROWANSPAN_FOLDER_FAILED, ROWANSPAN_FOLDER_BUSY,
    ROWANSPAN_FOLDER_DAMAGED, ROWANSPAN_DISK_FULL, ROWANSPAN_DISK_FAILED, ROWANSPAN_NO_FOLDER, ROWANSPAN_NOT_WRITTEN,
    ROWANSPAN_BAD_BATCH, ROWANSPAN_UNMET, ROWANSPAN_IN_FOLDER
};

enum { STATUSES = sizeof statuses / sizeof statuses[0], NUMBERS = 300 };

/* Each status has a text of its own, in small letters and without a full stop; all other numbers have one text. */
static void status_texts(void) {
    const char *other = rowanspan_status_text((rowanspan_status)NUMBERS);
    int number, i, j, others = 0;
    begins();
    for (i = 0; i < STATUSES; i++) {
        const char *text = rowanspan_status_text(statuses[i]);
        WANT(text[0] >= 'a' && text[0] <= 'z' && text[strlen(text) - 1] != '.');
        WANT(strcmp(text, other) != 0);
        for (j = 0; j < i; j++) {
            WANT(strcmp(text, rowanspan_status_text(statuses[j])) != 0);
        }
    }
    for (number = 0; number < NUMBERS; number++) {
        others += strcmp(rowanspan_status_text((rowanspan_status)number), other) == 0;
    }
    WANT_SAME(others, NUMBERS - STATUSES);
    WANT(strlen(other) > 10);
    ends("status_texts");
}

/* WANTED_VERSION is what the file VERSION says. */
static void version(void) {
    begins();
    WANT(strcmp(ROWANSPAN_VERSION, WANTED_VERSION) == 0);
    WANT(strcmp(rowanspan_version(), WANTED_VERSION) == 0);
    ends("version");
}

int main(void) {
    bad_options();
    two_indexes();
    status_texts();
    version();
    return all_told();
}
