/* word PROGRAM: runs it on `show` and a word that is no Unicode, half of a character in UTF-16, and
 * ends with its status. */
#include <stdio.h>
#include <wchar.h>
#include <windows.h>

int wmain(int argc, wchar_t **argv)
{
    wchar_t line[1024];
    STARTUPINFOW start = {.cb = sizeof start};
    PROCESS_INFORMATION process;
    DWORD status = 99;
    if (argc != 2 || swprintf(line, 1024, L"\"%ls\" show a%lcb", argv[1], 0xD800) < 0)
        return status;
    if (!CreateProcessW(argv[1], line, NULL, NULL, TRUE, 0, NULL, NULL, &start, &process))
        return status;
    WaitForSingleObject(process.hProcess, INFINITE);
    GetExitCodeProcess(process.hProcess, &status);
    return (int)status;
}
