/* No code: as a file by itself this is no program. */
int variable;
int variables[100];
