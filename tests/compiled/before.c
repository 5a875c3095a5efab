/* Pointers to before an array, as gcc makes them of an index less 48, and to its end. */
static const short values[10] = {0, 1, 4, 9, 16, 25, 36, 49, 64, 81};
static int seen[10];

int value_of(int digit) { return values[digit - '0']; }

void see(int digit) { seen[digit - '0']++; }

int sum(void)
{
    int sum = 0;
    for (const short *value = values; value != values + 10; value++)
        sum += *value;
    for (const int *count = seen; count != seen + 10; count++)
        sum += *count;
    return sum;
}
