// The headers in C++: every function is declared there as C, and works.
#include <cstring>

#include "pattern_text.h"

int main()
{
    static const uint8_t points[] = {'P', 'F', '0', '1', 2, 0, 0};
    uint8_t record[PATTERN_MAX_RECORD], sheet[PATTERN_MAX_WRITTEN];
    struct pattern_columns facts;

    if (std::strcmp(pattern_version(), PATTERN_VERSION) != 0)
        return 1;
    if (pattern_hold(points, sizeof points, record, sizeof record) < 0)
        return 2;
    if (pattern_place(record, sizeof record, 0, 1, PATTERN_SIZED, 300, pattern_held_count(record, sizeof record)) != PATTERN_WELL)
        return 3;
    int32_t len = pattern_held(record, sizeof record, sheet, sizeof sheet);
    if (len < 0 || pattern_read(sheet, static_cast<size_t>(len), &facts) != 0)
        return 4;
    if (facts.n != 2 || facts.e != 1 || facts.sizes[0] != 300)
        return 5;
    uint8_t again[PATTERN_MAX_WRITTEN];
    if (pattern_write_columns(&facts, again, sizeof again) != len || std::memcmp(again, sheet, static_cast<size_t>(len)) != 0)
        return 8;
    uint8_t first = 1, second = 0;
    int32_t size = 300;
    if (pattern_order_ends(facts.kinds, facts.n, &first, &second, &size) != 1 || first != 0 || second != 1 || size != 300)
        return 9;
    struct pattern_columns same = facts;
    if (pattern_read(sheet, static_cast<size_t>(len) - 1, &facts) != -PATTERN_CUT || std::memcmp(&same, &facts, sizeof facts) != 0)
        return 7; // a refused sheet leaves the columns as they were
    struct pattern_step steps[PATTERN_MAX_STEPS];
    if (pattern_steps(sheet, static_cast<size_t>(len), reinterpret_cast<uint64_t *>(steps), PATTERN_MAX_STEPS * PATTERN_STEP) != 0)
        return 6;
    return std::strcmp(pattern_verdict_text(pattern_verdict(sheet, static_cast<size_t>(len))), "well") != 0;
}
