/* Calls sqr_plan and sqr_plan_next, as include/sqrescue.h has them.

   plans steps FILE..    carries out each plan in memory: after each step up to the header's zeros the files show the
                         same database, and in the end the file is its pages, and no log counts. For each FILE a line
                         with the number of its recovery, or the status
   plans left FILE TO    does so, and leaves the files at TO
   plans memory FILE..   refuses each allocation in turn

   What no line shows is checked here: the last line is 'N passed, M failed'. */
#define _DEFAULT_SOURCE
#include "frame.h"

struct bytes {
    uint8_t *bytes;
    size_t len, room;
};

static int are_same_plans(const struct sqr_plan *a, const struct sqr_plan *b) {
    return !memcmp(&a->view, &b->view, sizeof a->view) && a->done == b->done && a->recovery == b->recovery;
}

static int are_same_steps(const struct sqr_step *a, const struct sqr_step *b) {
    return a->at == b->at && a->len == b->len && a->kind == b->kind && a->is_of_log == b->is_of_log
        && a->page == b->page;
}

static struct bytes copy_of(const uint8_t *bytes, size_t len, size_t more) {
    struct bytes copy = {room_for(len + more, 1), len, len + more};
    memcpy(copy.bytes, bytes, len);
    return copy;
}

static void carry_out(struct bytes *file, const struct sqr_view *view, const struct sqr_step *step) {
    uint8_t content[65536] = {0};
    if (step->kind == SQR_STEP_PAGE) check(!sqr_page(view, step->page, content, step->len), "a page of a plan");
    if (step->kind == SQR_STEP_PAGE || step->kind == SQR_STEP_ZEROS) {
        check(step->at + step->len <= file->room, "a step within the database");
        memcpy(file->bytes + step->at, content, step->len);
        if (step->at + step->len > file->len) file->len = step->at + step->len;
    } else if (step->kind == SQR_STEP_LENGTH) {
        check(step->len <= file->room, "a length within the database");
        if (step->len < file->len) memset(file->bytes + step->len, 0, file->len - step->len);
        file->len = step->len;
    } else {
        check(step->kind == SQR_STEP_SYNC, "a kind of step");
    }
}

/* Whether the files show the pages of a view. */
static int show_pages(const struct sqr_files *files, const struct sqr_view *wanted) {
    uint64_t *places = room_for(wanted->pages, sizeof *places);
    struct sqr_view view = SQR_VIEW_INIT;
    uint8_t page[65536], other[65536];
    int are = sqr_open(files, places, wanted->pages, &view) == SQR_OK && view.pages == wanted->pages
        && view.page_size == wanted->page_size;
    for (uint32_t i = 1; are && i <= view.pages; i++)
        are = !sqr_page(&view, i, page, view.page_size) && !sqr_page(wanted, i, other, view.page_size)
            && !memcmp(page, other, view.page_size);
    free(places);
    return are;
}

/* The steps, and the database that is shown after each of them. `every` says after how many steps that is looked at,
   and `to` where the files are left, NULL for nowhere. */
static void carry_out_all(const struct sqr_files *files, struct sqr_plan *plan, size_t every, const char *to) {
    int is_journal = plan->recovery == SQR_RECOVERY_ROLL_BACK, is_zeroed = 0;
    int is_changed = is_journal || plan->recovery == SQR_RECOVERY_FOLD;
    size_t size = (size_t)plan->view.pages * plan->view.page_size, count = 0, syncs[2] = {0, 0}, unsynced[2] = {0, 0};
    struct bytes both[2] = {copy_of(files->db, files->db_len, size),
                            is_journal ? copy_of(files->journal, files->journal_len, 32)
                                       : copy_of(files->wal, files->wal_len, 32)};
    struct sqr_step step = {9, 9, 9, 9, 9}, kept;
    for (uint32_t kind; (kind = sqr_plan_next(plan, &step));) {
        check(kind == step.kind && step.is_of_log < 2, "the kind of a step");
        if (count++ == 0) check(kind == SQR_STEP_SYNC && step.is_of_log, "the log is synced first");
        if (step.is_of_log && kind != SQR_STEP_SYNC) check(!unsynced[0], "the file is durable before the log changes");
        if (kind == SQR_STEP_LENGTH && step.is_of_log) check(!unsynced[1], "the header is zeroed, and then it is cut");
        is_zeroed |= kind == SQR_STEP_ZEROS;
        if (kind == SQR_STEP_SYNC) unsynced[step.is_of_log] = 0, syncs[step.is_of_log]++;
        else unsynced[step.is_of_log] = 1;
        carry_out(&both[step.is_of_log], &plan->view, &step);
        struct sqr_files now = {both[0].bytes, both[0].len, files->wal, 0, files->journal, 0};
        if (is_journal) now.journal = both[1].bytes, now.journal_len = both[1].len;
        else now.wal = both[1].bytes, now.wal_len = both[1].len;
        if (is_changed && !is_zeroed && count % every == 0)
            check(show_pages(&now, &plan->view), "the files show the same database meanwhile");
    }
    kept = step;
    check(sqr_plan_next(plan, &step) == SQR_STEP_END && are_same_steps(&kept, &step), "the end is the end");
    check(!unsynced[0] && !unsynced[1], "all is durable in the end");
    check(plan->recovery == SQR_RECOVERY_NONE ? count == 0 : syncs[0] == 1 && syncs[1] >= 2, "how often is synced");
    if (is_changed) {
        check(both[0].len == size, "the file is as long as its pages");
        for (uint32_t i = 1; i <= plan->view.pages; i++) {
            uint8_t page[65536];
            sqr_page(&plan->view, i, page, plan->view.page_size);
            if (memcmp(page, both[0].bytes + (size_t)(i - 1) * plan->view.page_size, plan->view.page_size))
                check(0, "the file is the pages");
        }
    } else {
        check(both[0].len == files->db_len, "the file is as long as it was");
        check(!memcmp(both[0].bytes, files->db, files->db_len), "the file is as it was");
    }
    struct sqr_files left = {both[0].bytes, both[0].len, both[1].bytes, 0, files->journal, 0};
    if (is_journal) left.journal = both[1].bytes, left.journal_len = both[1].len;
    else left.wal_len = both[1].len;
    uint32_t log = 77;
    check(sqr_log(&left, &log) == SQR_OK && log == SQR_NO_LOG, "no log counts in the end");
    if (to) {
        write_to(to, "", both[0].bytes, both[0].len);
        write_to(to, is_journal ? "-journal" : "-wal", both[1].bytes, both[1].len);
    }
    free(both[0].bytes);
    free(both[1].bytes);
}

static void answer_steps(const struct sqr_files *files, const char *to) {
    uint32_t page_size = 0, pages = 0, status = sqr_size(files, &page_size, &pages), log = 0;
    uint64_t *places = room_for(pages, sizeof *places);
    struct sqr_plan plan = SQR_PLAN_INIT, kept = plan;
    uint32_t found = sqr_plan(files, places, pages, &plan);
    if (status && found) {
        check(found == status, "a plan is refused as a view is");
        check(are_same_plans(&plan, &kept), "a plan that is refused is as it was");
    } else {
        check(!found, "a plan");
        check(sqr_log(files, &log) == SQR_OK && (log == SQR_NO_LOG) == (plan.recovery == SQR_RECOVERY_NONE), "its log");
        check((log == SQR_JOURNAL) == (plan.recovery == SQR_RECOVERY_ROLL_BACK), "the recovery of a journal");
        printf("%u: ", plan.recovery);
        if (plan.recovery == SQR_RECOVERY_FOLD || plan.recovery == SQR_RECOVERY_ROLL_BACK) {
            check(plan.view.pages == pages && plan.view.page_size == page_size, "the view of a plan");
            kept = plan;
            check(sqr_plan(files, places, pages - 1, &plan) == SQR_NO_ROOM, "a plan without room");
            check(are_same_plans(&plan, &kept), "a plan without room is as it was");
            check(sqr_plan(files, places, pages, &plan) == SQR_OK, "a plan again");
        }
        carry_out_all(files, &plan, 1 + pages / 40, to);
    }
    printf("%s\n", sqr_status_name(found));
    free(places);
}

/* Whatever a plan's fields are, each call returns. */
static void strange_plans(const struct sqr_files *files) {
    static const uint64_t ends[] = {0, 1, 2, 0xffffffff, 0x100000000, 0x100000001, 0x100000007, UINT64_MAX - 1,
                                    UINT64_MAX};
    for (uint32_t recovery = 0; recovery < 6; recovery++)
        for (size_t i = 0; i < sizeof ends / sizeof *ends; i++)
            for (int wide = 0; wide < 3; wide++) {
                struct sqr_plan plan = SQR_PLAN_INIT;
                struct sqr_step step = {0, 0, 0, 0, 0};
                size_t count = 0;
                plan.view.db = files->db, plan.view.db_len = files->db_len;
                plan.recovery = recovery, plan.done = ends[i];
                plan.view.page_size = wide ? UINT32_MAX : 512;
                plan.view.pages = wide == 2 ? UINT32_MAX - 3 : 5;
                if (wide == 2 && ends[i] < 0xffffff00) continue; /* each page is looked at */
                while (sqr_plan_next(&plan, &step) && ++count < 99) {}
                check(count < 9, "a strange plan ends");
            }
}

/* A plan that nobody made, of zeros alone, has at most the end of its recovery. */
static void zeroed_plans(void) {
    for (uint32_t recovery = 0; recovery < 6; recovery++) {
        struct sqr_plan plan;
        struct sqr_step step = {0, 0, 0, 0, 0};
        size_t count = 0;
        memset(&plan, 0, sizeof plan);
        plan.recovery = recovery;
        while (sqr_plan_next(&plan, &step) && ++count < 99) check(step.kind != SQR_STEP_PAGE, "no page of no view");
        check(count < 9 && sqr_plan_next(&plan, &step) == SQR_STEP_END, "a plan of zeros ends");
    }
}

/* Each allocation of a call is refused in turn. */
static void refuse_each(const struct sqr_files *files) {
    uint32_t page_size = 0, pages = 0, right = 0;
    sqr_size(files, &page_size, &pages);
    uint64_t *places = room_for(pages, sizeof *places);
    size_t total = 0;
    for (size_t number = 0; number <= total; number++) {
        struct sqr_plan plan = SQR_PLAN_INIT, kept = plan;
        count_from(number);
        uint32_t status = sqr_plan(files, places, pages, &plan);
        int is_none = was_refused(number, status, &right, &total);
        if (is_none) check(are_same_plans(&plan, &kept), "no memory leaves the plan");
    }
    check(right <= SQR_PAGE_SIZES_DIFFER, "a plan's status");
    free(places);
}

int main(int argc, char **argv) {
    if (argc < 3) return 2;
    const char *to = !strcmp(argv[1], "left") && argc == 4 ? argv[3] : NULL;
    for (int i = 2; i < (to ? 3 : argc); i++) {
        at_hand = argv[i];
        struct sqr_files files = files_of(argv[i]);
        if (!strcmp(argv[1], "memory")) refuse_each(&files);
        else answer_steps(&files, to);
        if (!strcmp(argv[1], "steps")) strange_plans(&files), zeroed_plans();
        give_back(&files);
    }
    return summed();
}
