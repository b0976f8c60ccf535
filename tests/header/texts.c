/* Prints the text of every answer as tests/header/texts.txt has them: the answer in hexadecimal, and its text. */
#include "mirror.h"

#include <stdio.h>
#include <string.h>

int main(void)
{
    const char *const unknown = mirror_text(UINT32_MAX);
    uint32_t number;
    for (number = 0; number < 0x10000; number++) {
        const char *const text = mirror_text(number);
        if (strcmp(text, unknown) != 0) {
            printf("%02x %s\n", (unsigned)number, text);
        }
    }
    return 0;
}
