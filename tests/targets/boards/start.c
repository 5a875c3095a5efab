/* Starts a test on a board, which has no command line: its words are WORD, where it is not empty,
 * and the names of the file NAMES. */
#include <stdio.h>
#include <string.h>

/* The test has its main under this name. */
#undef main
#define MOST 4096
int main_of_test(int argc, char **argv);

int main(void)
{
    static char text[1 << 18];
    static char *words[MOST + 3] = {"test"};
    int count = 1;
    if (WORD[0] != 0)
        words[count++] = WORD;
    FILE *file = fopen(NAMES, "r");
    if (file == NULL)
        return 3;
    text[fread(text, 1, sizeof text - 1, file)] = 0;
    fclose(file);
    for (char *at = strtok(text, "\n"); at != NULL && count < MOST; at = strtok(NULL, "\n"))
        words[count++] = at;
    return main_of_test(count, words);
}
