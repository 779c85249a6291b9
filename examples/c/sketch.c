/* Builds a sketch one distance at a time, asking before each is placed, and prints what it does; then its report, and
 * the report for its plan told backwards. */
#include <stdio.h>

#include "pattern.h"

static const char *const names[] = {"over", "angle", "well", "stuck", "under"};

int main(void)
{
    /* four points and no constraint, then six distances of 30 mm */
    static const uint8_t points[] = {'P', 'F', '0', '1', 4, 0, 0};
    static const uint8_t pairs[6][2] = {{0, 1}, {0, 2}, {1, 2}, {1, 3}, {2, 3}, {0, 3}};
    uint8_t record[PATTERN_MAX_RECORD];
    pattern_hold(points, sizeof points, record, sizeof record);

    for (int i = 0; i < 6; i++) {
        uint8_t a = pairs[i][0], b = pairs[i][1];
        pattern_len held = (pattern_len)pattern_held_count(record, sizeof record);
        int32_t asked = pattern_ask(record, sizeof record, a, b, PATTERN_SIZED, 300);
        if (asked < 0) {
            printf("%d %d: refused %d\n", a, b, (int)-asked);
            continue;
        }
        pattern_place(record, sizeof record, a, b, PATTERN_SIZED, 300, held);
        printf("%d %d: %s\n", a, b, names[asked]);
    }

    uint8_t sheet[PATTERN_MAX_WRITTEN];
    size_t len = (size_t)pattern_held(record, sizeof record, sheet, sizeof sheet);

    uint8_t report[PATTERN_MAX_REPORT];
    int32_t count = pattern_report(sheet, len, report, sizeof report);
    fwrite(report, 1, (size_t)count, stdout);

    /* the other triangle first, the parts of each step in any order */
    static const uint16_t plan[] = {4, 3, 2, 5, 1, 0};
    count = pattern_check_plan(sheet, len, plan, 6, report, sizeof report);
    fwrite(report, 1, (size_t)count, stdout);
    return 0;
}
