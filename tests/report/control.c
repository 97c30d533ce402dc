/*
 * A part of a cabinet's firmware as a compiler sees it, for its stack-usage report: frames of a few
 * bytes and of some hundreds and thousands, one of a static function, and one of a function that the
 * name list does not have.
 */
#include <stddef.h>

int humidity_task(const int *samples, size_t count);
void fan_task(unsigned char *speed);
int tray_task(int angle);
size_t log_task(const char *line, char *to);
int spare(int number);

/* The mean of the last samples, and of zeros before them. */
static int mean(const int *samples, size_t count)
{
    int last[64] = {0}, sum = 0;

    for (size_t i = 0; i < count; i++)
        last[i % 64] = samples[i];
    for (size_t i = 0; i < 64; i++)
        sum += last[i];
    return sum / 64;
}

int humidity_task(const int *samples, size_t count)
{
    return mean(samples, count);
}

void fan_task(unsigned char *speed)
{
    if (*speed < 255)
        ++*speed;
}

/* In whole motor steps; what is left over is kept for the next turn. */
int tray_task(int angle)
{
    int steps[12], left = angle;

    for (size_t i = 0; i < 12; i++) {
        steps[i] = left / (12 - (int)i);
        left -= steps[i];
    }
    return steps[0] + left;
}

size_t log_task(const char *line, char *to)
{
    char page[4096];
    size_t length = 0;

    while (length < sizeof page - 1 && line[length] != 0) {
        page[length] = line[length];
        length++;
    }
    page[length] = 0;
    for (size_t i = 0; i <= length; i++)
        to[i] = page[i];
    return length;
}

int spare(int number)
{
    return number;
}
