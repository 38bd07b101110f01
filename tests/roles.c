/* Calls sqr_check_with and sqr_page_roles, as include/sqrescue.h has them.

   roles of FLAGS FRAME FILE..   for each FILE a line 'file FILE', its roles as `sqrescue show --pages` prints the front
                                 of its lines, and the line of `sqrescue check`
   roles memory FILE..           refuses each allocation of each call in turn

   What no line shows is checked here: the last line is 'N passed, M failed'. */
#define _DEFAULT_SOURCE
#include "frame.h"

/* Roles, and checks with what is asked for. */

static void print_role(uint32_t page, struct sqr_role role) {
    static const char *const kinds[] = {"?", "table leaf", "table interior", "index leaf", "index interior", "overflow",
                                        "free trunk", "free leaf", "lock byte", "pointer map", "unused"};
    printf("page %u %s", page, kinds[role.kind <= SQR_UNUSED ? role.kind : 0]);
    if (role.of) printf(" of %u", role.of);
    printf("\n");
}

static void print_check(uint32_t status, const struct sqr_report *report) {
    if (status == SQR_OK)
        printf("clean: %u pages, %u trees, %u b-tree, %u overflow, %u free\n", report->pages, report->trees,
               report->btree, report->overflow, report->free);
    else if (status == SQR_DAMAGED)
        printf("page %u: fault %u %s\n", report->page, report->fault, sqr_fault_name(report->fault));
    else
        printf("sqrescue: %s\n", sqr_status_name(status));
}

static void count_roles(const struct sqr_report *report, const struct sqr_role *roles, uint32_t pages) {
    uint32_t btree = 0, overflow = 0, unused = 0;
    for (uint32_t i = 0; i < pages; i++) {
        btree += roles[i].kind <= SQR_INDEX_INTERIOR;
        overflow += roles[i].kind == SQR_OVERFLOW;
        unused += roles[i].kind == SQR_UNUSED;
    }
    check(btree == report->btree && overflow == report->overflow && !unused, "the roles of a report's counts");
}

static void answer_roles(const struct sqr_files *files, uint32_t flags, uint32_t frame) {
    struct sqr_report report = {1, 2, 3, 4, 5, 6, 7};
    struct sqr_survey survey = {7, 8, 9}, kept = survey, again = survey;
    struct sqr_role none = {77, 88};
    uint32_t verdict = sqr_check_with(files, flags, frame, &report);
    uint32_t status = sqr_page_roles(files, flags, frame, &none, 0, &survey);
    check(none.kind == 77 && none.of == 88, "roles without room leave the array");
    if (status != SQR_NO_ROOM) {
        int is_headless = status == SQR_NOT_A_DATABASE && verdict == SQR_DAMAGED;
        check(is_headless || status == verdict, "roles are refused as a check is");
        check(memcmp(&survey, &kept, sizeof survey) == 0, "roles that are refused leave their answer");
    } else {
        struct sqr_role *roles = room_for(survey.pages, sizeof *roles);
        check(survey.pages > 0 && !survey.fault && !survey.page, "how much room is needed");
        if (survey.pages > 1) {
            status = sqr_page_roles(files, flags, frame, roles, survey.pages - 1, &again);
            check(status == SQR_NO_ROOM, "one place too few");
            check(roles[0].kind == 0, "one place too few leaves the array");
        }
        status = sqr_page_roles(files, flags, frame, roles, survey.pages + 1, &again);
        check(roles[survey.pages].kind == 0, "the place behind the roles stays");
        if (status <= SQR_DAMAGED) {
            check(status == verdict && again.pages == survey.pages, "roles say what a check says");
            check(again.fault == report.fault && again.page == report.page, "the fault of a check");
            if (status == SQR_OK) count_roles(&report, roles, survey.pages);
            for (uint32_t i = 0; i < survey.pages; i++) print_role(i + 1, roles[i]);
        } else {
            int is_headless = status == SQR_NOT_A_DATABASE && verdict == SQR_DAMAGED;
            check(is_headless || status == verdict, "roles that are refused");
            check(roles[0].kind == 0, "roles that are refused leave the array");
        }
        free(roles);
    }
    print_check(verdict, &report);
}

/* The calls without flags are the plain ones; other flags are refused. */
static void plain_calls(const struct sqr_files *files) {
    struct sqr_report one = {1, 2, 3, 4, 5, 6, 7}, other = one, kept = one;
    check(sqr_check_with(files, 0, 7, &one) == sqr_check(files, &other), "a check with no flags");
    check(memcmp(&one, &other, sizeof one) == 0, "its report");
    for (uint32_t frame = 0; frame < 9; frame++) {
        one = other = kept;
        check(sqr_check_with(files, SQR_AT, frame, &one) == sqr_check_at(files, frame, &other), "a check at a frame");
        check(memcmp(&one, &other, sizeof one) == 0, "its report");
    }
    static const uint32_t unknown[] = {1, 2, 3, 5, 32, 33, 128, 1u << 31, UINT32_MAX};
    one = kept;
    struct sqr_role role = {77, 88};
    struct sqr_survey survey = {7, 8, 9};
    for (size_t i = 0; i < sizeof unknown / sizeof *unknown; i++) {
        check(sqr_check_with(files, unknown[i], 0, &one) == SQR_UNKNOWN_OPTIONS, "a flag that isn't known");
        check(sqr_page_roles(files, unknown[i], 0, &role, 1, &survey) == SQR_UNKNOWN_OPTIONS, "and of roles");
    }
    check(memcmp(&one, &kept, sizeof one) == 0 && role.kind == 77 && survey.pages == 7, "these leave all");
}

/* Each allocation of a call is refused in turn. */
static void refuse_each(const struct sqr_files *files, int is_check) {
    const uint32_t flags = SQR_LARGE | SQR_POINTER_MAPS;
    struct sqr_survey need = {0, 0, 0};
    struct sqr_role none = {0, 0};
    sqr_page_roles(files, flags, 0, &none, 0, &need);
    struct sqr_role *roles = room_for(need.pages, sizeof *roles);
    size_t total = 0;
    uint32_t right = 0;
    for (size_t number = 0; number <= total; number++) {
        struct sqr_report report = {1, 2, 3, 4, 5, 6, 7}, kept = report;
        struct sqr_survey survey = {7, 8, 9};
        count_from(number);
        uint32_t status = is_check ? sqr_check_with(files, flags, 0, &report)
                                   : sqr_page_roles(files, flags, 0, roles, need.pages, &survey);
        if (was_refused(number, status, &right, &total)) {
            check(!is_check || !memcmp(&report, &kept, sizeof report), "no memory leaves the report");
            check(survey.pages == 7 && survey.fault == 8 && survey.page == 9, "no memory leaves the answer");
        }
    }
    check(is_check || right == SQR_OK || right == SQR_DAMAGED || need.pages == 0, "the roles of a database");
    free(roles);
}

int main(int argc, char **argv) {
    if (argc < 3) return 2;
    const int is_memory = !strcmp(argv[1], "memory");
    if (!is_memory && argc < 4) return 2;
    for (int i = is_memory ? 2 : 4; i < argc; i++) {
        at_hand = argv[i];
        struct sqr_files files = files_of(argv[i]);
        if (is_memory) {
            refuse_each(&files, 0);
            refuse_each(&files, 1);
        } else {
            printf("file %s\n", argv[i]);
            plain_calls(&files);
            answer_roles(&files, (uint32_t)atoi(argv[2]), (uint32_t)atoi(argv[3]));
        }
        give_back(&files);
    }
    return summed();
}
