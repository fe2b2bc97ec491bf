/*
 * The C functions of the kit that the programs are over, for machines other than x86-64, for which the kit has them compiled. Their
 * contracts are the kit's (os/src/c.rt and libc/src/heap.rt of its guides' folder); a slice comes as a pointer and a length.
 */
#include <errno.h>
#include <stdbool.h>
#include <stddef.h>
#include <stdint.h>
#include <stdlib.h>
#include <sys/types.h>

enum { NO_SUCH_ARGUMENT = -1, DOES_NOT_FIT = -2 };

/* The program's arguments. */
static int count;
static char **words;

/* Keeps the program's arguments before it begins. */
__attribute__((constructor)) static void keep(int given_count, char **given_words)
{
    count = given_count;
    words = given_words;
}

/* Copies an argument: its length, or that there is none, or that it does not fit, and then the buffer is full. */
ssize_t rattle_arg(size_t place, uint8_t *buffer, size_t room)
{
    if (place >= (size_t)count || words[place] == NULL) {
        return NO_SUCH_ARGUMENT;
    }
    size_t length = 0;
    for (; words[place][length] != '\0'; length++) {
        if (length == room) {
            return DOES_NOT_FIT;
        }
        buffer[length] = (uint8_t)words[place][length];
    }
    return (ssize_t)length;
}

/* The number of the last error. */
int32_t rattle_errno(void)
{
    return errno;
}

/* Sets that number. */
void rattle_set_errno(int32_t error)
{
    errno = error;
}

/* Memory, or none; there is some pointer in any case. */
struct tried {
    bool is_there;
    void *block;
};

/* Asks for memory for a value of that size and alignment, 16 at most, which malloc's has. */
struct tried rattle_alloc(size_t size, size_t alignment)
{
    static uint8_t nothing[16];
    void *block = malloc(size != 0 ? size : alignment);
    return (struct tried){.is_there = block != NULL, .block = block != NULL ? block : nothing};
}

/* Gives it back. */
void rattle_dealloc(void *block)
{
    free(block);
}
