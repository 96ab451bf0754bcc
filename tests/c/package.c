/* The package's two functions: one version, and a text of its own for each number. */
#include <waldumre.h>

#include <stdio.h>
#include <string.h>

int main(void)
{
    static const uint64_t numbers[] = {
        0,
        WALDUMRE_CATALOGUE,
        WALDUMRE_VALUES,
        WALDUMRE_PERMIT_FORM,
        WALDUMRE_PERMIT_SIZE,
        WALDUMRE_PERMIT_NAMES,
        WALDUMRE_PERMIT_WORKSPACE,
        WALDUMRE_QUERY_FORM,
        WALDUMRE_QUERY_SIZE,
        WALDUMRE_QUERY_NAMES,
        WALDUMRE_NO_PERMIT,
        WALDUMRE_REWRITTEN_BUFFER,
        WALDUMRE_ANSWER_BUFFER,
        WALDUMRE_TEXT_FORM,
        WALDUMRE_TEXT_NAMES,
        WALDUMRE_RECORDS_BUFFER,
        53,
        54, /* the last: any number that there is not */
    };
    enum { COUNT = sizeof numbers / sizeof *numbers };
    if (strcmp(waldumre_version(), WALDUMRE_VERSION) != 0) {
        printf("package: the library is %s, the header %s\n", waldumre_version(), WALDUMRE_VERSION);
        return 1;
    }
    int known = 0;
    for (uint64_t number = 0; number < 300; number++)
        known += strcmp(waldumre_refusal_text(number), waldumre_refusal_text(UINT64_MAX)) != 0;
    for (int i = 0; i < COUNT; i++)
        for (int j = 0; j < i; j++)
            if (strcmp(waldumre_refusal_text(numbers[i]), waldumre_refusal_text(numbers[j])) == 0) {
                printf("package: %d and %d have one text\n", (int)numbers[i], (int)numbers[j]);
                return 1;
            }
    if (known != COUNT - 1) {
        printf("package: %d numbers have a text, not %d\n", known, COUNT - 1);
        return 1;
    }
    return 0;
}
