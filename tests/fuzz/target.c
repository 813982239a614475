/* The door through which libFuzzer hands in bytes. What is done with them is on the twin's side, which is instrumented; the library is not. */
#include <stddef.h>
#include <stdint.h>
#include <stdlib.h>

int twin_compare(const uint8_t *data, size_t count);

int LLVMFuzzerTestOneInput(const uint8_t *data, size_t count)
{
    /* An abort, because libFuzzer then keeps the input in a file. */
    if (twin_compare(data, count) != 0)
        abort();
    return 0;
}
