/* A pointer to 100 bytes past the end of an array, which is what `hunk lint` looks for. */
static int array[25];
int *beyond = array + 50;
