/* README's sample tells 'refused', 'no row' and the value -1 apart. */
#include SAMPLE

#include <stdio.h>

static const char *const words[] = {"shown", "no row", "refused"};

static int is(const char *what, enum shown said, enum shown due, int64_t cell, int64_t due_cell)
{
    if (said == due && cell == due_cell)
        return 0;
    printf("sample: %s: %s %lld, not %s %lld\n", what, words[said], (long long)cell, words[due], (long long)due_cell);
    return 1;
}

int main(void)
{
    const uint8_t catalogue[] = {48, 1, 2, 0};
    const int32_t values[] = {-1, 5};
    const uint8_t permits[] = {64, 0, 255, 255, 16};
    uint8_t query[] = {1, 0, 0, 33, 0, 0, 21, 3, 33, 0, 0, 32, 0, 0, 0, 0}; /* below 0 */
    int64_t cell = 99;
    int failed = 0;
    enum shown said = label(catalogue, sizeof catalogue, values, 2, permits, sizeof permits, query, sizeof query, &cell);
    failed |= is("the value -1", said, SHOWN, cell, -1);
    cell = 99;
    query[12] = 247; /* below 247: both, the first is -1 */
    said = label(catalogue, sizeof catalogue, values, 2, permits, sizeof permits, query, sizeof query, &cell);
    failed |= is("two rows", said, SHOWN, cell, -1);
    cell = 99;
    query[7] = WALDUMRE_OP_GT; /* above 247: none */
    said = label(catalogue, sizeof catalogue, values, 2, permits, sizeof permits, query, sizeof query, &cell);
    failed |= is("no row", said, NO_ROW, cell, 99);
    said = label(catalogue, sizeof catalogue, values, 2, NULL, 0, query, sizeof query, &cell);
    failed |= is("no permit", said, REFUSED, cell, 99);
    return failed;
}
