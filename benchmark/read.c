/* A plain read of memory, for the read bandwidth: the sum in 32 bits. */
#include <stddef.h>
#include <stdint.h>

uint32_t plain_read(const uint32_t *numbers, size_t length);

uint32_t plain_read(const uint32_t *numbers, size_t length)
{
    uint32_t sum = 0;
    for (size_t i = 0; i < length; i++)
        sum += numbers[i];
    return sum;
}
