/* The heap of hunkinfo on processors for which the kit has no C: it stands in for heap.pic.o of the kit's
 * c/liblibc_c.a, which is for x86-64 alone. Trusted, as that is: what it answers is what the contracts of the
 * kit's crate libc say. The library libhunk has no heap, and takes none of this.
 *
 * The program wants an answer where LLVM puts two numbers of 64 bits, which on some machines is not where C puts a
 * struct of them. For those the kit's clang makes a module of this file for x86-64, which ports/retarget.py writes
 * anew. That clang has no headers, so none is included. */
typedef __SIZE_TYPE__ size;

void *malloc(size);
void *realloc(void *, size);
void free(void *);

/* Whether there was memory, and where; where there was none, a place of no use that is no null pointer. */
struct tried {
    size ok, place;
};

static _Alignas(16) char nothing[16];

static struct tried tried(void *place)
{
    struct tried answer = {place != 0, (size)(place != 0 ? place : nothing)};
    return answer;
}

/* Alignments divide 16, which malloc keeps to. A block of no bytes has to have a place of its own, too. */
struct tried rattle_alloc(size len, size alignment)
{
    return tried(malloc(len != 0 ? len : alignment));
}

struct tried rattle_realloc(void *place, size kept, size len, size alignment)
{
    (void)kept;
    return tried(realloc(place, len != 0 ? len : alignment));
}

void rattle_dealloc(void *place)
{
    free(place);
}
