/*
 * A frame that grows with an argument: the compiler cannot say how large it gets, and marks the
 * function's line in its report.
 */
#include <stddef.h>

int median(const int *samples, size_t count);
int largest(const int *samples, size_t count);

int largest(const int *samples, size_t count)
{
    int most = samples[0];

    for (size_t i = 1; i < count; i++)
        if (samples[i] > most)
            most = samples[i];
    return most;
}

int median(const int *samples, size_t count)
{
    int sorted[count];

    for (size_t i = 0; i < count; i++) {
        size_t at = i;
        for (; at > 0 && sorted[at - 1] > samples[i]; at--)
            sorted[at] = sorted[at - 1];
        sorted[at] = samples[i];
    }
    return sorted[count / 2];
}
