"""C programs by chance, of what has addresses in it: tables of functions, of texts and of variables, a switch, and calls."""

import random

HEAD = """static int calls;
static char room[{room}];
static const char *const texts[] = {{{texts}}};
"""
FUNCTION = """static int f{i}(int n)
{{
    calls += {number};
    room[n & {mask}] = texts[n % {count}][0];
    switch (n & 7) {{
    case 0: return {number};
    case 1: return n + v{i};
    case 2: return (int)(long)&v{other};
    case 3: return room[n & 1];
    case 5: return texts[{text}] != 0;
    default: return v{other}++ * {number};
    }}
}}
"""
MAIN = """static int (*const functions[])(int) = {{{names}}};
int *variables[] = {{{variables}}};
int main(int count, char **words)
{{
    int sum = 0;
    for (int i = 0; i < count + {count}; i++)
        sum += functions[i % {count}](i) + *variables[i % {count}] + words[0][i];
    return sum + calls;
}}
void _start(void) {{ main(0, 0); }}
"""


def program(seed):
    """A C program, the same one for each number."""
    chance = random.Random(seed)
    count = chance.randint(1, 8)
    texts = [f'"{chance.randrange(1 << 32):x}"' for _ in range(count)]
    variables = [f"{chance.choice(('', 'static '))}int v{i}{chance.choice(('', f' = {chance.randrange(1 << 16)}'))};\n" for i in range(count)]
    room = 1 << chance.randint(1, 12)
    parts = [HEAD.format(room=room, texts=", ".join(texts)), *variables]
    for i in range(count):
        parts.append(FUNCTION.format(i=i, number=chance.randrange(1, 1 << 15), mask=room - 1, count=count, other=chance.randrange(count),
                                     text=chance.randrange(count)))
    names, places = (", ".join(f"{sign}{i}" for i in range(count)) for sign in ("f", "&v"))
    return "".join([*parts, MAIN.format(names=names, variables=places, count=count)])
