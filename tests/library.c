/* Calls the C library over databases with their logs, as include/sqrescue.h has it.

   library answers LIST OUT   for each line of LIST, the path of a database, writes what the calls answer to OUT: a line
                              'PATH', one of the view, and those that sqrescue's check and show --log print; the pages
                              are those of the file PATH.pages, where it is there
   library memory LIST        refuses each allocation of each call in turn
   library threads A B        a view each on two threads, and one view on two, again and again
   library none               NULL and length 0

   What no line shows is checked here: the last line is 'N passed, M failed'. The calls that ask for memory are wrapped
   by the linker (--wrap=malloc and so on). */
#define _DEFAULT_SOURCE
#include "sqrescue.h"

#include <inttypes.h>
#include <pthread.h>
#include <stdio.h>
#include <stdlib.h>
#include <string.h>

void *__real_malloc(size_t size);
void *__real_realloc(void *old, size_t size);
void __real_free(void *block);

/* Of the library's allocations, counted while a call runs: the number of the one that is refused, 0 for none. */
static size_t asked, refused, held;
static int is_counting;
static int passed, failed;

static int is_refused(void) {
    return is_counting && ++asked == refused;
}

void *__wrap_malloc(size_t size) {
    if (is_refused()) return NULL;
    void *block = __real_malloc(size);
    if (is_counting && block) held++;
    return block;
}

void *__wrap_realloc(void *old, size_t size) {
    if (is_refused()) return NULL;
    void *block = __real_realloc(old, size);
    if (is_counting && block && !old) held++;
    return block;
}

void __wrap_free(void *block) {
    if (is_counting && block) held--;
    __real_free(block);
}

static const char *at_hand = "";

static void check(int is_right, const char *what) {
    if (is_right) {
        passed++;
        return;
    }
    failed++;
    printf("failed: %s: %s\n", at_hand, what);
}

/* The bytes of a file in a block of just that length, so a read after it is seen; none of one that is missing. */
static uint8_t *bytes_of(const char *path, const char *end, size_t *len) {
    char name[4096];
    snprintf(name, sizeof name, "%s%s", path, end);
    FILE *file = fopen(name, "rb");
    *len = 0;
    if (!file) return NULL;
    fseek(file, 0, SEEK_END);
    *len = (size_t)ftell(file);
    rewind(file);
    uint8_t *bytes = *len ? malloc(*len) : NULL;
    if (*len && fread(bytes, 1, *len, file) != *len) exit(2);
    fclose(file);
    return bytes;
}

static struct sqr_files files_of(const char *path) {
    size_t db_len, wal_len, journal_len;
    const uint8_t *db = bytes_of(path, "", &db_len);
    const uint8_t *wal = bytes_of(path, "-wal", &wal_len), *journal = bytes_of(path, "-journal", &journal_len);
    struct sqr_files files = SQR_FILES(db, db_len, wal, wal_len, journal, journal_len);
    return files;
}

static void give_back(struct sqr_files *files) {
    if (files->db_len) free((void *)(uintptr_t)files->db);
    if (files->wal_len) free((void *)(uintptr_t)files->wal);
    if (files->journal_len) free((void *)(uintptr_t)files->journal);
}

/* Whether the pages of a view are those of a database file, of which what is missing are zeros. */
static int are_pages(const struct sqr_view *view, uint8_t *page, const uint8_t *file, size_t len) {
    int differ = 0;
    for (uint32_t number = 1; number <= view->pages; number++) {
        size_t size = view->page_size, at = (number - 1) * size;
        size_t there = at >= len ? 0 : len - at < size ? len - at : size;
        memset(page, 0xa5, size);
        differ |= sqr_page(view, number, page, size) != SQR_OK;
        const uint8_t *bytes = sqr_page_bytes(view, number);
        if (bytes) differ |= memcmp(bytes, page, size);
        if (there) differ |= memcmp(page, file + at, there);
        for (size_t i = there; i < size; i++) differ |= page[i];
    }
    return !differ;
}

/* Refusals of a page leave the buffer as it was, also at lengths and fields that no view has. */
static void refuse_pages(struct sqr_view view, uint8_t *page, uint8_t *kept) {
    memset(page, 0xa5, view.page_size);
    memcpy(kept, page, view.page_size);
    check(sqr_page(&view, 0, page, view.page_size) == SQR_NO_SUCH_PAGE, "page 0");
    check(sqr_page(&view, view.pages + 1, page, view.page_size) == SQR_NO_SUCH_PAGE, "the page behind the last");
    check(sqr_page(&view, UINT32_MAX, page, view.page_size) == SQR_NO_SUCH_PAGE, "the greatest number");
    struct sqr_place place = {7, 8};
    check(sqr_page_place(&view, 0, &place) == SQR_NO_SUCH_PAGE && !sqr_page_bytes(&view, 0), "no place of page 0");
    check(sqr_page_place(&view, view.pages + 1, &place) == SQR_NO_SUCH_PAGE, "no place of the page behind the last");
    check(place.at == 7 && place.is_of_log == 8, "a place that is refused stays");
    if (view.pages) {
        check(sqr_page(&view, 1, page, view.page_size - 1) == SQR_WRONG_SIZE, "a buffer that is too short");
        check(sqr_page(&view, view.pages, page, 0) == SQR_WRONG_SIZE, "a buffer of no bytes");
    }
    check(memcmp(page, kept, view.page_size) == 0, "a page that is refused leaves the buffer");
}

/* Views whose fields a caller has written return. */
static void strange_views(struct sqr_view view) {
    static const uint32_t sizes[] = {0, 1, 3, 512, 65536, 0x80000000u, UINT32_MAX};
    static const uint64_t places[] = {0, 1, UINT64_MAX, UINT64_MAX - 511, 1ull << 63, 1ull << 40};
    static uint8_t page[65536];
    for (size_t i = 0; i < sizeof sizes / sizeof *sizes; i++) {
        struct sqr_view strange = view;
        strange.page_size = sizes[i];
        strange.pages = UINT32_MAX;
        strange.places = places;
        strange.places_len = sizeof places / sizeof *places;
        for (uint32_t number = 1; number <= 8; number++)
            sqr_page(&strange, number, page, sizes[i] <= sizeof page ? sizes[i] : sizeof page);
        sqr_page(&strange, UINT32_MAX, page, sizes[i] <= sizeof page ? sizes[i] : sizeof page);
    }
    passed++;
}

/* The least room that is enough is the pages where a log counts, otherwise none: whatever is less is refused. */
static void try_room(const struct sqr_files *files, uint64_t *places, uint32_t pages) {
    struct sqr_view view = SQR_VIEW_INIT, kept = SQR_VIEW_INIT;
    uint32_t status = sqr_open(files, places, 0, &view);
    check(status == SQR_OK || (status == SQR_NO_ROOM && pages), "an opening without room");
    if (status == SQR_OK) return;
    check(memcmp(&view, &kept, sizeof view) == 0, "an opening that is refused leaves the view");
    check(sqr_open(files, places, pages - 1, &view) == SQR_NO_ROOM, "one place too few");
    check(memcmp(&view, &kept, sizeof view) == 0, "an opening with too little room leaves the view");
}

static void answer_view(const struct sqr_files *files, FILE *out) {
    uint32_t page_size = 77, pages = 88;
    struct sqr_view view = SQR_VIEW_INIT, kept = view;
    uint64_t none = 99;
    uint32_t status = sqr_size(files, &page_size, &pages), log = 77, two = sqr_log(files, &log);
    check(two == (status == SQR_TWO_LOGS ? SQR_TWO_LOGS : SQR_OK), "which log counts");
    check(two ? log == 77 : log == (files->wal_len ? SQR_WAL : log ? SQR_JOURNAL : SQR_NO_LOG), "the log that counts");
    check(status != SQR_NO_MEMORY, "no memory, though none was refused");
    if (status) {
        fprintf(out, "view %s\n", sqr_status_name(status));
        check(page_size == 77 && pages == 88, "a size that is refused leaves both");
        check(sqr_open(files, &none, 1, &view) == status, "an opening is refused as its size is");
        check(memcmp(&view, &kept, sizeof view) == 0 && none == 99, "an opening that is refused leaves all");
        return;
    }
    uint64_t *places = malloc((size_t)pages * sizeof *places + 1);
    uint8_t *page = malloc(page_size), *other = malloc(page_size);
    if (!places || !page || !other) exit(2);
    try_room(files, places, pages);
    check(sqr_open(files, places, pages, &view) == SQR_OK, "an opening");
    check(view.page_size == page_size && view.pages == pages, "a view has its size");
    fprintf(out, "view %u pages of %u\n", pages, page_size);
    size_t len;
    uint8_t *file = bytes_of(at_hand, ".pages", &len);
    if (file) check(are_pages(&view, page, file, len), "the pages");
    free(file);
    refuse_pages(view, page, other);
    strange_views(view);
    free(other);
    free(page);
    free(places);
}

static void answer_check(const struct sqr_files *files, FILE *out) {
    struct sqr_report report = {1, 2, 3, 4, 5, 6, 7}, kept = report;
    uint32_t status = sqr_check(files, &report);
    check(status != SQR_NO_MEMORY, "no memory, though none was refused");
    if (status == SQR_OK)
        fprintf(out, "clean: %u pages, %u trees, %u b-tree, %u overflow, %u free\n", report.pages, report.trees,
                report.btree, report.overflow, report.free);
    else if (status == SQR_DAMAGED)
        fprintf(out, "page %u: fault %u %s\n", report.page, report.fault, sqr_fault_name(report.fault));
    else
        fprintf(out, "sqrescue: %s\n", sqr_status_name(status));
    if (status == SQR_OK)
        check(!report.fault && !report.page && report.btree + report.overflow + report.free == report.pages, "counts");
    else if (status == SQR_DAMAGED)
        check(!report.pages && !report.trees && !report.btree && !report.overflow && !report.free, "no counts");
    else
        check(memcmp(&report, &kept, sizeof report) == 0, "a check that is refused leaves the report");
}

/* The place that a fault of a deep check names, as the program prints it. */
static void print_place(const struct sqr_deep_report *report, FILE *out) {
    const char *gap = "";
    if (report->places & SQR_DEEP_ROW) {
        fprintf(out, "schema row %" PRIu64, report->row + 1);
        gap = ": ";
    }
    if (report->places & SQR_DEEP_PAGE) fprintf(out, "%spage %u", gap, report->page);
    if (report->places & SQR_DEEP_CELL) fprintf(out, " cell %" PRIu64, report->cell);
}

static void answer_deep(const struct sqr_files *files, FILE *out) {
    struct sqr_deep_answer answer = {{1, 2, 3, 4, 5, 6, 7, 8, 9, 10, 11, 12, 13}, UINT64_MAX, UINT64_MAX};
    const struct sqr_deep_report kept = answer.report;
    uint64_t rows[2] = {UINT64_MAX, UINT64_MAX};
    uint32_t status = sqr_check_deep_all(files, 0, 0, rows, 1, &answer);
    const struct sqr_deep_report report = answer.report;
    const uint64_t left = answer.left;
    struct sqr_deep_report again = kept;
    check(sqr_check_deep(files, 0, 0, rows, 0, &again) == status, "both deep checks answer the same");
    check(memcmp(&report, &again, sizeof report) == 0, "both deep checks tell the same");
    struct sqr_deep_answer complete = {kept, UINT64_MAX, UINT64_MAX};
    const uint32_t of_all = sqr_check_deep_all(files, SQR_COMPLETE, 0, rows + 1, 0, &complete);
    check(of_all == status || (status == SQR_OK && of_all == SQR_NOT_JUDGED), "what is to judge all answers the same");
    check(of_all != SQR_NOT_JUDGED || complete.left > 0, "not judged where something isn't");
    check(of_all != SQR_OK || !(report.indexes | report.tables | report.asides), "all is judged");
    check(memcmp(&report, &complete.report, sizeof report) == 0 && complete.left == left, "the same report");
    check(complete.ill_formed == answer.ill_formed, "as many texts that aren't valid");
    check(status != SQR_NO_MEMORY && status != SQR_AUTO_VACUUM, "a deep check without its cause");
    check(rows[1] == UINT64_MAX, "the place behind the rows stays");
    if (status == SQR_OK) {
        fprintf(out, "clean: %u pages, %u trees, %u b-tree, %u overflow, %u free; ", report.pages, report.trees,
                report.btree, report.overflow, report.free);
        fprintf(out, left ? "not fully judged\n" : "records, schema and indexes sound\n");
        check(left >= report.indexes + report.tables, "what isn't judged is counted");
        check(!report.fault && !report.places && !report.page && !report.cell && !report.row, "no fault, no place");
        check((report.indexes + report.tables > 0) == (rows[0] != UINT64_MAX), "the rows of what isn't judged");
    } else if (status == SQR_DAMAGED) {
        print_place(&report, out);
        fprintf(out, ": fault %u %s\n", report.fault, sqr_fault_name(report.fault));
        check(!report.pages && !report.trees && !report.btree && !report.overflow && !report.free, "no counts");
        check(!report.indexes && !report.tables && !report.asides, "nothing is left open of a damaged database");
        check(rows[0] == UINT64_MAX && left == 0, "no rows of a damaged database");
        check(answer.ill_formed == 0, "no texts of a damaged database");
    } else {
        fprintf(out, "sqrescue: %s\n", sqr_status_name(status));
        check(memcmp(&report, &kept, sizeof report) == 0, "a deep check that is refused leaves the report");
        check(left == UINT64_MAX && answer.ill_formed == UINT64_MAX, "a deep check that is refused leaves the numbers");
    }
}

static const char *wal_why(uint32_t why) {
    static const char *const names[] = {"?", "End", "Cut", "Salt", "PageZero", "Sum"};
    return names[why <= SQR_WAL_SUM ? why : 0];
}

static void answer_wal(const uint8_t *wal, size_t len, FILE *out) {
    struct sqr_wal found = {1, 2, 3, 4, 5, 6}, kept = found, again = found;
    struct sqr_frame none = {7, 8};
    uint32_t status = sqr_wal_scan(wal, len, &none, 0, &found);
    check(status != SQR_NO_MEMORY, "no memory, though none was refused");
    if (status != SQR_OK && status != SQR_NO_ROOM) {
        fprintf(out, "wal %s\n", sqr_status_name(status));
        check(memcmp(&found, &kept, sizeof found) == 0, "a scan that is refused leaves its answer");
        return;
    }
    check((status == SQR_NO_ROOM) == (found.frames > 0) && none.page == 7 && none.size == 8, "a scan without room");
    struct sqr_frame *frames = malloc(found.frames * sizeof *frames + 1);
    check(sqr_wal_scan(wal, len, frames, found.frames, &again) == SQR_OK, "a scan");
    check(memcmp(&found, &again, sizeof found) == 0, "a scan says the same with room");
    fprintf(out, "wal pagesize %u\n", found.page_size);
    for (uint32_t i = 0; i < found.frames; i++)
        fprintf(out, "frame %u page %u size %u\n", i + 1, frames[i].page, frames[i].size);
    fprintf(out, "front %u size %u stop %s at %u\n", found.front, found.pages, wal_why(found.why), found.stop);
    free(frames);
}

/* The commits are the frames with a size, and each frame up to the front is one of a commit. */
static int are_commits(const struct sqr_commit *commits, uint32_t count, const struct sqr_frame *frames,
                       uint32_t last) {
    uint32_t commit = 0, before = 0;
    for (uint32_t frame = 1; frame <= last; frame++) {
        if (!frames[frame - 1].size) continue;
        if (commit == count || commits[commit].frame != frame || commits[commit].frames != frame - before) return 0;
        if (commits[commit].pages != frames[frame - 1].size) return 0;
        before = frame;
        commit++;
    }
    return commit == count && before == last;
}

static void answer_commits(const uint8_t *wal, size_t len) {
    struct sqr_wal found = {0, 0, 0, 0, 0, 0};
    struct sqr_frame no_frame = {0, 0};
    struct sqr_commit none = {7, 8, 9};
    uint32_t count = 99, again = 98, status = sqr_wal_commits(wal, len, &none, 0, &count);
    uint32_t scanned = sqr_wal_scan(wal, len, &no_frame, 0, &found);
    check(status != SQR_NO_MEMORY, "no memory, though none was refused");
    check(none.frame == 7 && none.frames == 8 && none.pages == 9, "commits without room leave the array");
    if (status != SQR_OK && status != SQR_NO_ROOM) {
        check(status == scanned && count == 99, "commits are refused as a scan is, and leave their number");
        return;
    }
    check((status == SQR_NO_ROOM) == (count > 0), "commits without room");
    struct sqr_commit *commits = calloc(count + 1ul, sizeof *commits);
    struct sqr_frame *frames = calloc(found.frames + 1ul, sizeof *frames);
    if (!commits || !frames) exit(2);
    if (count) status = sqr_wal_commits(wal, len, commits, count - 1, &again);
    check(!count || (status == SQR_NO_ROOM && again == count && !commits[0].frame), "too few places for commits");
    check(sqr_wal_commits(wal, len, commits, count + 1ul, &again) == SQR_OK && again == count, "commits with room");
    check(!commits[count].frame, "the place behind the commits stays");
    check(sqr_wal_scan(wal, len, frames, found.frames, &found) == SQR_OK, "a scan of commits");
    check(are_commits(commits, count, frames, found.front), "the commits");
    free(commits);
    free(frames);
}

static int are_zeros(const uint64_t *places, size_t count) {
    for (size_t i = 0; i < count; i++)
        if (places[i]) return 0;
    return 1;
}

/* What two openings found: the same status, and the same pages. */
static int are_one_view(uint32_t one, const struct sqr_view *a, uint32_t other, const struct sqr_view *b) {
    if (one != other || a->page_size != b->page_size || a->pages != b->pages) return 0;
    if (a->places_len != b->places_len) return 0;
    uint8_t *page = malloc(a->page_size + 1u), *same = malloc(a->page_size + 1u);
    int differ = !page || !same;
    for (uint32_t number = 1; !differ && number <= a->pages; number++) {
        differ |= sqr_page(a, number, page, a->page_size) != SQR_OK;
        differ |= sqr_page(b, number, same, a->page_size) != SQR_OK;
        differ |= memcmp(page, same, a->page_size);
    }
    free(page);
    free(same);
    return !differ;
}

/* A commit that isn't known is refused by each call. */
static void answer_unknown(const struct sqr_files *files, struct sqr_commit commit) {
    struct sqr_view view = SQR_VIEW_INIT, kept = view;
    struct sqr_report report = {1, 2, 3, 4, 5, 6, 7};
    struct sqr_role role = {77, 88};
    struct sqr_survey survey = {7, 8, 9};
    uint64_t *places = calloc(commit.pages + 1ul, sizeof *places);
    if (!places) exit(2);
    const uint32_t wanted = SQR_COMMIT_OVERWRITTEN, frame = commit.frame;
    check(sqr_open_at(files, frame, places, commit.pages, &view) == wanted, "a commit that isn't known");
    check(!memcmp(&view, &kept, sizeof view) && are_zeros(places, commit.pages), "which leaves all");
    check(sqr_check_at(files, frame, &report) == wanted && report.fault == 1, "its check");
    struct sqr_deep_report deep = {.fault = 77};
    check(sqr_check_deep(files, SQR_AT, frame, NULL, 0, &deep) == wanted && deep.fault == 77, "its deep check");
    check(sqr_page_roles(files, SQR_AT, frame, &role, 1, &survey) == wanted && role.kind == 77, "its roles");
    free(places);
}

/* The view at a commit that is known is the view of the files whose log ends after it, with the pages that its header
   counts, and the database that recovery leaves of these: the file PATH.at-FRAME, if it is there. */
static void answer_commit(const struct sqr_files *files, struct sqr_commit commit, uint32_t page_size) {
    struct sqr_files cut = *files;
    struct sqr_view view = SQR_VIEW_INIT, wanted = SQR_VIEW_INIT, kept = view;
    uint64_t *places = calloc(commit.pages + 1ul, sizeof *places), *others = calloc(commit.pages + 1ul, sizeof *others);
    uint8_t *page = malloc(page_size + 1u);
    if (!places || !others || !page) exit(2);
    cut.wal_len = 32 + commit.frame * (24 + (size_t)page_size);
    check(sqr_open_at(files, commit.frame, places, 0, &view) == SQR_NO_ROOM, "a commit without room");
    check(!memcmp(&view, &kept, sizeof view) && are_zeros(places, commit.pages), "a commit without room leaves all");
    uint32_t status = sqr_open(&cut, others, commit.pages, &wanted);
    uint32_t found = sqr_open_at(files, commit.frame, places, commit.pages, &view);
    check(found == SQR_OK && view.pages && view.pages <= commit.pages, "a view at a commit");
    const int is_whole = view.pages == commit.pages;
    if (wanted.pages > view.pages) wanted.pages = view.pages, wanted.places_len = view.places_len;
    check(are_one_view(found, &view, status, &wanted), "the view at a commit is that of the log cut behind it");
    struct sqr_report report = {1, 2, 3, 4, 5, 6, 7}, right = report;
    const uint32_t verdict = sqr_check_at(files, commit.frame, &report), other = sqr_check(&cut, &right);
    check(!is_whole || verdict == other, "a check at a commit");
    check(!is_whole || !memcmp(&report, &right, sizeof report), "a report at a commit is that of the cut log");
    char end[32];
    size_t len;
    snprintf(end, sizeof end, ".at-%u", commit.frame);
    uint8_t *file = bytes_of(at_hand, end, &len);
    if (file) check(len == (size_t)page_size * view.pages && are_pages(&view, page, file, len), "pages at a commit");
    free(file);
    free(page);
    free(others);
    free(places);
}

/* What a recovery refuses of the log that counts, or 0. */
static uint32_t asked_of_log(const struct sqr_files *files) {
    uint32_t page_size = 0, pages = 0, status = sqr_size(files, &page_size, &pages);
    return status == SQR_LOG_VERSION || status == SQR_PAGE_SIZES_DIFFER ? status : 0;
}

/* At 0 there is the file alone; where no commit ends there is no view, nor where a recovery refuses the log. */
static void refuse_frames(const struct sqr_files *files, const struct sqr_commit *commits, uint32_t count,
                          uint32_t asked) {
    struct sqr_files alone = SQR_FILES(files->db, files->db_len, NULL, 0, NULL, 0);
    struct sqr_view view = SQR_VIEW_INIT, wanted = SQR_VIEW_INIT, kept = view;
    uint64_t place = 99, other = 98;
    uint32_t status = sqr_open(&alone, &other, 0, &wanted), found = sqr_open_at(files, 0, &place, 0, &view);
    if (found == SQR_OK) check(are_one_view(found, &view, status, &wanted), "the view at 0 is the file's own");
    else if (found != status && found != SQR_TWO_LOGS && found != SQR_NOT_A_DATABASE)
        check(count && found == SQR_COMMIT_OVERWRITTEN, "a view at 0 is refused if a checkpoint may have changed it");
    view = kept;
    uint32_t last = count ? commits[count - 1].frame : 0, commit = 0, right = SQR_NO_SUCH_COMMIT;
    if (found == SQR_TWO_LOGS) right = found;
    if (asked) right = asked;
    for (uint32_t frame = 1; frame <= last + 2; frame++) {
        if (!asked && commit < count && commits[commit].frame == frame) commit++;
        else if (sqr_open_at(files, frame, &place, 1, &view) != right) check(0, "a frame that ends no commit");
    }
    check(sqr_open_at(files, UINT32_MAX, &place, 1, &view) == right, "the greatest frame");
    check(place == 99 && memcmp(&view, &kept, sizeof view) == 0, "a view at no commit leaves all");
    struct sqr_report report = {1, 2, 3, 4, 5, 6, 7};
    found = sqr_check_at(files, UINT32_MAX, &report);
    check(found == SQR_NO_SUCH_COMMIT || found == SQR_TWO_LOGS || found == SQR_TOO_LARGE, "a check at no commit");
    check(report.fault == 1 && report.free == 7, "a check at no commit leaves the report");
}

/* Of each commit whether it is known, and the last one is. What refuses the commits refuses this, too. */
static uint8_t *known_commits(const struct sqr_files *files, uint32_t refused, uint32_t count) {
    uint8_t *known = malloc(count + 1ul);
    uint32_t again = 98;
    if (!known) exit(2);
    memset(known, 77, count + 1ul);
    uint32_t status = sqr_known_commits(files, known, count ? count - 1 : 0, &again);
    check(status == refused && (again == count || again == 98) && known[0] == 77, "known commits without room");
    if (count) status = sqr_known_commits(files, known, count + 1ul, &again);
    if (!count) return known;
    check(status == SQR_OK && again == count && known[count] == 77 && known[count - 1] == 1, "known commits");
    for (uint32_t i = 0; i < count; i++) check(known[i] <= 1, "a commit is known or not");
    return known;
}

static void answer_at(const struct sqr_files *files) {
    enum { MOST = 40 };
    struct sqr_commit none = {0, 0, 0};
    struct sqr_wal found = {0, 0, 0, 0, 0, 0};
    struct sqr_frame frame = {0, 0};
    uint32_t count = 0, status = sqr_wal_commits(files->wal, files->wal_len, &none, 0, &count);
    if (status != SQR_OK && status != SQR_NO_ROOM) count = 0;
    struct sqr_commit *commits = calloc(count + 1ul, sizeof *commits);
    if (!commits) exit(2);
    if (count) check(sqr_wal_commits(files->wal, files->wal_len, commits, count, &count) == SQR_OK, "commits again");
    uint8_t *known = known_commits(files, status, count);
    uint32_t asked = asked_of_log(files);
    refuse_frames(files, commits, count, asked);
    sqr_wal_scan(files->wal, files->wal_len, &frame, 0, &found);
    for (uint32_t i = 0; !asked && i < count; i += 1 + count / MOST) {
        if (!known[i]) answer_unknown(files, commits[i]);
        else answer_commit(files, commits[i], found.page_size);
    }
    free(known);
    free(commits);
}

static const char *journal_why(uint32_t why) {
    static const char *const names[] = {"?", "End", "Header", "Short", "PageZero", "Sum"};
    return names[why <= SQR_JOURNAL_SUM ? why : 0];
}

static void answer_journal(const uint8_t *journal, size_t len, FILE *out) {
    struct sqr_journal found = {1, 2, 3, 4, 5, 6}, kept = found, again = found;
    struct sqr_record none = {7, 8};
    uint32_t status = sqr_journal_scan(journal, len, &none, 0, &found);
    check(status != SQR_NO_MEMORY, "no memory, though none was refused");
    check(none.at == 7 && none.page == 8, "a journal's scan without room leaves the array");
    if (status != SQR_OK && status != SQR_NO_ROOM) {
        fprintf(out, "journal %s\n", sqr_status_name(status));
        check(memcmp(&found, &kept, sizeof found) == 0, "a journal's scan that is refused leaves its answer");
        return;
    }
    check((status == SQR_NO_ROOM) == (found.records > 0), "a journal's scan without room");
    struct sqr_record *records = calloc(found.records + 1, sizeof *records);
    if (!records) exit(2);
    if (found.records) {
        status = sqr_journal_scan(journal, len, records, found.records - 1, &again);
        check(status == SQR_NO_ROOM && !records[0].page, "a place too few for records");
    }
    check(sqr_journal_scan(journal, len, records, found.records + 1, &again) == SQR_OK, "a journal's scan");
    check(memcmp(&found, &again, sizeof found) == 0, "a journal's scan says the same with room");
    check(!records[found.records].page, "the place behind the records stays");
    fprintf(out, "journal pagesize %u sector %u first %u\n", found.page_size, found.sector, found.pages);
    for (uint64_t i = 0; i < found.records; i++)
        fprintf(out, "record %" PRIu64 " page %u at %" PRIu64 "\n", i + 1, records[i].page, records[i].at);
    fprintf(out, "stop %s at %" PRIu64 "\n", journal_why(found.why), found.stop);
    free(records);
}

static void answer_all(const struct sqr_files *files, FILE *out) {
    answer_view(files, out);
    answer_check(files, out);
    answer_deep(files, out);
    answer_wal(files->wal, files->wal_len, out);
    answer_commits(files->wal, files->wal_len);
    answer_at(files);
    answer_journal(files->journal, files->journal_len, out);
}

enum { ROOM = 4096, CALLS = 9 };

/* What the calls over one database write to. */
struct room {
    uint32_t page_size, pages;
    uint64_t *places;
    size_t room;
    struct sqr_view view;
    struct sqr_report report;
    struct sqr_wal wal;
    struct sqr_frame frames[ROOM];
    struct sqr_commit commits[ROOM];
    uint32_t count, known_count;
    uint8_t known[ROOM];
    struct sqr_journal journal;
    struct sqr_record records[ROOM];
    uint64_t rows[ROOM];
    struct sqr_deep_report deep;
};

enum { DEEP = 6 }; /* the call that checks what the pages hold, too */

static uint32_t call(int which, const struct sqr_files *files, struct room *room) {
    switch (which) {
    case 0: return sqr_size(files, &room->page_size, &room->pages);
    case 1: return sqr_open(files, room->places, room->room, &room->view);
    case 2: return sqr_check(files, &room->report);
    case 3: return sqr_wal_scan(files->wal, files->wal_len, room->frames, ROOM, &room->wal);
    case 4: return sqr_wal_commits(files->wal, files->wal_len, room->commits, ROOM, &room->count);
    case 5: return sqr_open_at(files, 4, room->places, room->room, &room->view);
    case DEEP: return sqr_check_deep(files, 0, 0, room->rows, ROOM, &room->deep);
    case 7: return sqr_known_commits(files, room->known, ROOM, &room->known_count);
    default: return sqr_journal_scan(files->journal, files->journal_len, room->records, ROOM, &room->journal);
    }
}

/* A call of which this allocation is refused, 0 for none. */
static uint32_t counted_call(int which, const struct sqr_files *files, struct room *room, size_t refuse) {
    asked = held = 0;
    refused = refuse;
    is_counting = 1;
    uint32_t status = call(which, files, room);
    is_counting = 0;
    check(held == 0, "a call gives back what it asked for");
    return status;
}

static size_t refuse_each(int which, const struct sqr_files *files, struct room *right, struct room *room) {
    memset(right->places, 0, right->room * sizeof *right->places);
    uint32_t status = counted_call(which, files, right, 0);
    size_t count = asked;
    for (size_t at = 1; at <= count; at++) {
        struct room *kept = malloc(sizeof *kept);
        memset(room->places, 0, room->room * sizeof *room->places);
        memcpy(kept, room, sizeof *kept);
        uint32_t answer = counted_call(which, files, room, at);
        /* An index whose first entries can't be held is judged without them. */
        if (which == DEEP && answer == status) {
            check(memcmp(&room->deep, &right->deep, sizeof room->deep) == 0, "the same is found without it");
            memcpy(room, kept, sizeof *kept);
        }
        check(answer == SQR_NO_MEMORY || (which == DEEP && answer == status), "an allocation is refused");
        check(memcmp(kept, room, sizeof *kept) == 0, "no memory leaves all that a call writes to");
        check(are_zeros(room->places, room->room), "no memory leaves the places");
        free(kept);
    }
    check(counted_call(which, files, room, 0) == status && asked == count, "the call after these");
    return count;
}

/* Whether two hold the same answers. */
static int are_same(const struct room *a, const struct room *b) {
    int differ = memcmp(a->places, b->places, a->room * sizeof *a->places);
    differ |= memcmp(&a->report, &b->report, sizeof a->report);
    differ |= a->page_size != b->page_size || a->pages != b->pages;
    differ |= a->view.page_size != b->view.page_size || a->view.pages != b->view.pages || a->view.log != b->view.log;
    differ |= memcmp(&a->wal, &b->wal, sizeof a->wal) | memcmp(a->frames, b->frames, sizeof a->frames);
    differ |= a->count != b->count || memcmp(a->commits, b->commits, sizeof a->commits);
    differ |= a->known_count != b->known_count || memcmp(a->known, b->known, sizeof a->known);
    differ |= memcmp(&a->journal, &b->journal, sizeof a->journal) | memcmp(a->records, b->records, sizeof a->records);
    return !differ;
}

static size_t memory_of(const struct sqr_files *files) {
    struct room *rooms = calloc(2, sizeof *rooms);
    size_t count = 0;
    uint32_t page_size = 0, pages = 0;
    sqr_size(files, &page_size, &pages);
    for (int i = 0; i < 2; i++) {
        struct sqr_view none = SQR_VIEW_INIT;
        rooms[i].view = none;
        rooms[i].room = pages;
        rooms[i].places = calloc((size_t)pages + 1, sizeof(uint64_t));
    }
    for (int which = 0; which < CALLS; which++) count += refuse_each(which, files, &rooms[0], &rooms[1]);
    check(are_same(&rooms[0], &rooms[1]), "the calls after these answer the same");
    free(rooms[0].places);
    free(rooms[1].places);
    free(rooms);
    return count;
}

static void each_of(const char *list, void (*each)(const struct sqr_files *, FILE *), FILE *out) {
    char line[4096];
    FILE *lines = fopen(list, "r");
    if (!lines) exit(2);
    while (fgets(line, sizeof line, lines)) {
        line[strcspn(line, "\n")] = 0;
        at_hand = line;
        struct sqr_files files = files_of(line);
        if (out) fprintf(out, "%s\n", line);
        each(&files, out);
        give_back(&files);
    }
    fclose(lines);
}

static size_t refusals;

static void refuse_all(const struct sqr_files *files, FILE *out) {
    (void)out;
    refusals += memory_of(files);
}

static void *run_thread(void *path) {
    static const int ROUNDS = 10;
    struct sqr_files files = files_of(path);
    uint32_t page_size = 0, pages = 0;
    uintptr_t wrong = 0;
    size_t len;
    uint8_t *file = bytes_of(path, ".pages", &len);
    wrong += sqr_size(&files, &page_size, &pages) != SQR_OK || len != (size_t)page_size * pages;
    uint64_t *places = malloc((size_t)pages * sizeof *places + 1);
    uint8_t *page = malloc(page_size + 1u);
    for (int i = 0; i < ROUNDS; i++) {
        struct sqr_view view = SQR_VIEW_INIT;
        struct sqr_report report = {0, 0, 0, 0, 0, 0, 0};
        wrong += sqr_open(&files, places, pages, &view) != SQR_OK || !are_pages(&view, page, file, len);
        wrong += sqr_check(&files, &report) != SQR_OK;
    }
    free(page);
    free(places);
    free(file);
    give_back(&files);
    return (void *)wrong;
}

/* A view that two threads read, and the database that it is to have. */
struct shared {
    struct sqr_view view;
    const uint8_t *file;
    size_t len;
};

static void *read_shared(void *given) {
    static const int ROUNDS = 20;
    const struct shared *shared = given;
    uintptr_t wrong = 0;
    uint8_t *page = malloc(shared->view.page_size + 1u);
    for (int i = 0; i < ROUNDS; i++) wrong += !are_pages(&shared->view, page, shared->file, shared->len);
    free(page);
    return (void *)wrong;
}

static void run_shared(const char *path) {
    struct sqr_files files = files_of(path);
    struct sqr_view none = SQR_VIEW_INIT;
    struct shared shared = {none, NULL, 0};
    uint32_t page_size = 0, pages = 0;
    pthread_t threads[2];
    uint8_t *file = bytes_of(path, ".pages", &shared.len);
    shared.file = file;
    at_hand = path;
    check(sqr_size(&files, &page_size, &pages) == SQR_OK, "the size of a view for two threads");
    uint64_t *places = malloc((size_t)pages * sizeof *places + 1);
    check(sqr_open(&files, places, pages, &shared.view) == SQR_OK, "a view for two threads");
    for (int i = 0; i < 2; i++)
        if (pthread_create(&threads[i], NULL, read_shared, &shared)) exit(2);
    for (int i = 0; i < 2; i++) {
        void *wrong = NULL;
        pthread_join(threads[i], &wrong);
        check(!wrong, "one view on two threads");
    }
    free(places);
    free(file);
    give_back(&files);
}

static void run_threads(char **paths) {
    pthread_t threads[2];
    for (int i = 0; i < 2; i++)
        if (pthread_create(&threads[i], NULL, run_thread, paths[i])) exit(2);
    for (int i = 0; i < 2; i++) {
        void *wrong = NULL;
        pthread_join(threads[i], &wrong);
        at_hand = paths[i];
        check(!wrong, "a view on a thread of its own");
    }
}

/* The name is this text, and zeros after it. */
static int is_name(const struct sqr_name *name, uint32_t length, const char *text) {
    struct sqr_name wanted;
    memset(&wanted, 0, sizeof wanted);
    memcpy(wanted.text, text, strlen(text));
    return length == strlen(text) && !memcmp(name, &wanted, sizeof wanted);
}

/* The names that the library writes are those of the header. */
static void check_names(uint32_t number) {
    struct sqr_name name;
    memset(&name, 0xa5, sizeof name);
    uint32_t length = sqr_status_text(number, &name);
    check(is_name(&name, length, sqr_status_name(number)), "a status has one name");
    memset(&name, 0xa5, sizeof name);
    length = sqr_fault_text(number, &name);
    const char *wanted = number > SQR_FAULT_POINTER_MAP ? "?" : sqr_fault_name(number);
    check(is_name(&name, length, wanted), "a fault of sqr_check has one name");
}

/* A header that counts two pages, beside a hot journal of a database of one. */
static void run_count(void) {
    uint8_t db[1024] = {0}, journal[512] = {0xd9, 0xd5, 0x05, 0xf9, 0x20, 0xa1, 0x63, 0xd7};
    uint64_t place = 5;
    struct sqr_deep_report report;
    db[31] = 2;
    journal[19] = 1;
    journal[22] = journal[26] = 2;
    struct sqr_files files = SQR_FILES(db, sizeof db, NULL, 0, journal, sizeof journal);
    at_hand = "a count";
    check(sqr_check_deep(&files, 0, 0, &place, 0, &report) == SQR_DAMAGED, "a header that counts too many");
    check(report.fault == SQR_FAULT_PAGE_COUNT && report.places == SQR_DEEP_PAGE && report.page == 1, "its fault");
    journal[19] = 2;
    check(sqr_check_deep(&files, 0, 0, &place, 0, &report) == SQR_DAMAGED, "a header that counts as many");
    check(report.fault == SQR_FAULT_MAGIC, "another fault");
    files.db_len = 700;
    journal[19] = 2;
    db[31] = 3;
    check(sqr_check_deep(&files, 0, 0, &place, 0, &report) == SQR_DAMAGED, "a file that is cut beside that");
    check(report.fault == SQR_FAULT_FILE_CUT && report.page == 2, "which comes first");
}

static void run_none(void) {
    struct sqr_files files = SQR_FILES(NULL, 0, NULL, 0, NULL, 0);
    struct sqr_view view = SQR_VIEW_INIT;
    struct sqr_report report = {0, 0, 0, 0, 0, 0, 0};
    struct sqr_wal wal = {1, 1, 1, 1, 1, 1};
    struct sqr_frame frame = {0, 0};
    struct sqr_commit commit = {0, 0, 0};
    struct sqr_journal journal = {1, 1, 1, 1, 1, 1};
    struct sqr_record record = {0, 0};
    uint32_t page_size = 1, pages = 2, count = 3;
    uint64_t place = 5;
    uint8_t page = 6;
    at_hand = "NULL, 0";
    check(sqr_size(&files, &page_size, &pages) == SQR_NOT_A_DATABASE, "no database");
    check(sqr_open(&files, &place, 0, &view) == SQR_NOT_A_DATABASE, "no view");
    check(sqr_page(&view, 1, &page, 0) == SQR_NO_SUCH_PAGE && page == 6, "no page of a view that wasn't opened");
    check(sqr_check(&files, &report) == SQR_DAMAGED && report.fault == SQR_FAULT_MAGIC && report.page == 1, "a fault");
    check(sqr_wal_scan(sqr_bytes(NULL), 0, &frame, 0, &wal) == SQR_OK && !wal.frames && !wal.page_size, "no frames");
    check(wal.front == 0 && wal.pages == 0 && wal.stop == 0, "no front");
    check(sqr_wal_commits(sqr_bytes(NULL), 0, &commit, 0, &count) == SQR_OK && !count, "no commits");
    check(sqr_journal_scan(sqr_bytes(NULL), 0, &record, 0, &journal) == SQR_OK && !journal.records, "no records");
    check(!journal.page_size && !journal.stop && journal.why == SQR_JOURNAL_END, "no journal");
    check(!strcmp(sqr_status_name(SQR_VERSION), "unknown log version"), "the name of a status");
    check(!strcmp(sqr_status_name(32), "?") && !strcmp(sqr_fault_name(0), "?"), "the name of no status and no fault");
    check(!strcmp(sqr_status_name(SQR_NOT_JUDGED), "not judged"), "the name of the last status");
    check(!strcmp(sqr_fault_name(21), "SchemaRecord"), "the name of a fault");
    check(!strcmp(sqr_fault_name(62), "KeyTwice") && !strcmp(sqr_fault_name(44), "?"), "the name of a fault inside");
    check(!strcmp(sqr_fault_name(SQR_FAULT_FILE_CUT), "FileCut"), "the name of the fault of a file that is cut");
    check(!strcmp(sqr_fault_name(SQR_FAULT_PAGE_COUNT), "PageCount"), "the name of the fault of a count");
    struct sqr_deep_report deep;
    check(sqr_check_deep(&files, 0, 0, &place, 0, &deep) == SQR_DAMAGED && deep.fault == SQR_FAULT_MAGIC, "a fault");
    check(deep.places == SQR_DEEP_PAGE && deep.page == 1 && !deep.cell && !deep.row, "the place of a fault");
    check(sqr_check_deep(&files, 1, 0, &place, 0, &deep) == SQR_UNKNOWN_OPTIONS, "a flag that isn't known");
    check(sqr_check_deep(&files, 128, 0, &place, 0, &deep) == SQR_UNKNOWN_OPTIONS, "nor is the next one");
    check(sqr_check_deep(&files, SQR_COMPLETE, 0, &place, 0, &deep) == SQR_DAMAGED, "damage where all is to be judged");
    check(sqr_check_with(&files, SQR_COMPLETE, 0, &report) == SQR_UNKNOWN_OPTIONS, "a flag of deep checks alone");
    check(sqr_version() == SQR_VERSION_NUMBER, "the version of the header is that of the library");
    for (uint32_t number = 0; number < 64; number++) check_names(number);
    check_names(UINT32_MAX);
}

int main(int argc, char **argv) {
    if (argc == 4 && !strcmp(argv[1], "answers")) {
        FILE *out = fopen(argv[3], "w");
        if (!out) return 2;
        each_of(argv[2], answer_all, out);
        if (fclose(out)) return 2;
    } else if (argc == 3 && !strcmp(argv[1], "memory")) {
        each_of(argv[2], refuse_all, NULL);
        check(refusals > 20, "allocations were refused");
        printf("%zu allocations\n", refusals);
    } else if (argc == 4 && !strcmp(argv[1], "threads")) {
        run_threads(argv + 2);
        run_shared(argv[2]);
        run_shared(argv[3]);
    } else if (argc == 2 && !strcmp(argv[1], "none")) {
        run_none();
        run_count();
    } else {
        return 2;
    }
    printf("%d passed, %d failed\n", passed, failed);
    return failed != 0;
}
