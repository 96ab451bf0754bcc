/* A program for the texts of conformance/: reads `text` and `names`, and `room`, the bytes that the buffer for the records has. */
#include "waldumre.h"

#include <stdio.h>
#include <stdlib.h>

static uint8_t text[4096], names[65536], records[65536];

/* A missing file counts as empty. */
static size_t file(const char *name, uint8_t *to, size_t most)
{
    FILE *from = fopen(name, "rb");
    if (from == NULL)
        return 0;
    size_t length = fread(to, 1, most, from);
    fclose(from);
    return length;
}

int main(void)
{
    uint8_t digits[16] = {0};
    file("room", digits, sizeof digits - 1);
    size_t text_length = file("text", text, sizeof text), names_length = file("names", names, sizeof names);
    size_t room = strtoul((char *)digits, NULL, 10);
    if (room > sizeof records)
        return 2;
    waldumre_reading got = waldumre_read_query(text, text_length, names, names_length, records, room);
    if (got.number != 0) {
        printf("refused %d\n", (int)got.number);
        return 0;
    }
    printf("records %d\n", (int)got.length);
    for (uint64_t i = 0; i < got.length; i++)
        printf("%s%d", i > 0 ? " " : "", records[i]);
    printf("\n");
    return 0;
}
