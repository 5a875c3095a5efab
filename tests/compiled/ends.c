/* A loop over the rows of a table. gcc ends it where a pointer to a field of each row comes to that of
 * the row after the last: 12 bytes past the end of the table. */
struct row {
    char name[12];
    const char *places;
};

static const struct row rows[] = {{"one", "1"}, {"two", "2"}, {"three", "3"}, {"four", "4"}};

int count_place(const char *place);

int count_places(void)
{
    int count = 0;
    for (unsigned i = 0; i < sizeof rows / sizeof *rows; i++)
        for (const char *next = rows[i].places; *next != 0; next++)
            count += count_place(next);
    return count;
}
