/* What each test includes first for Windows. Standard input and output are binary, as on Linux. A
 * command line takes 32,767 characters there, and the names of all files have more: the words of
 * `@FILE` are the lines of this file. */
#include <fcntl.h>
#include <io.h>
#include <stdio.h>
#include <stdlib.h>
#include <string.h>

/* The test, whether it takes words or not. */
int tested();

int main(int argc, char **argv)
{
    static char text[1 << 20];
    static char *words[1 << 16];
    _setmode(0, _O_BINARY);
    _setmode(1, _O_BINARY);
    if (argc != 2 || argv[1][0] != '@')
        return tested(argc, argv);
    FILE *file = fopen(argv[1] + 1, "rb");
    if (file == NULL || fread(text, 1, sizeof text - 1, file) == sizeof text - 1)
        exit(3);
    words[0] = argv[0];
    argc = 1;
    for (char *word = strtok(text, "\n"); word != NULL; word = strtok(NULL, "\n"))
        words[argc++] = word;
    return tested(argc, words);
}

#define main tested
