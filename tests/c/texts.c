/*
 * What wallmirror_refusal_text says of each number, of the one after the last and of the greatest.
 * The output is to be that of texts.expected, which a test of the Rust crate compares with its own
 * texts.
 */
#include <stdio.h>

#include "wallmirror.h"

int main(void)
{
    uint32_t number;
    for (number = 0; number <= WALLMIRROR_NO_DRAFT + 1; number++)
        printf("%lu: %s\n", (unsigned long)number, wallmirror_refusal_text(number));
    number = UINT32_MAX;
    printf("%lu: %s\n", (unsigned long)number, wallmirror_refusal_text(number));
    return 0;
}
