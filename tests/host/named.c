/* Reads a text of named lines, by pieces of two: of each line its letters, or why it is refused. */
#include <stdio.h>
#include <zurkhovel.h>

int main(void)
{
    uint8_t text[4096], records[2 * ZK_RECORD], letters[2 * ZK_LETTERS], numbers[2];
    size_t places[2], lines, at, from = 0, i, len = fread(text, 1, sizeof text, stdin);

    while (from < len) {
        zk_named_read_text(text + from, len - from, records, sizeof records, letters, sizeof letters, numbers, 2, places, 2, &lines, &at);
        for (i = 0; i < lines; i++)
            if (numbers[i] != 0)
                printf("no, %u at %u: %s\n", numbers[i], (unsigned)places[i], zk_words(numbers[i]));
            else
                printf("%.*s, its first digit is %u\n", (int)places[i], (const char *)letters + ZK_LETTERS * i, records[ZK_RECORD * i]);
        from += at;
    }
    return 0;
}
