#include <stdio.h>
#include <string.h>
#include <zurkhovel.h>

int main(void)
{
    char line[100];
    uint8_t digits[ZK_DIGITS];

    while (fgets(line, sizeof line, stdin) != NULL) {
        uint32_t answer = zk_read_line((uint8_t *)line, strlen(line), digits, sizeof digits);

        if (zk_refused(answer))
            printf("no: %s\n", zk_words(zk_number(answer)));
        else
            printf("a skeleton of %u atoms\n", zk_place(answer));
    }
    return 0;
}
