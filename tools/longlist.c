/* Lists standard input, the bytes of blocks, as the lister does, but of any length: `./list --long FILE`. It goes block
   by block, so that only one block's text is kept. */
#include "fadc250.h"
#include <errno.h>
#include <stdio.h>
#include <stdlib.h>
#include <string.h>

enum { PIECE = 1 << 16 };

struct bytes {
    uint8_t *at;
    size_t length, room;
};

/* Says what failed; answers 0. */
static int failed(const char *what)
{
    fprintf(stderr, "longlist: %s: %s\n", what, strerror(errno));
    return 0;
}

/* Makes room for n bytes, or for twice as many as before: small steps would copy a long input again and again. */
static int grow(struct bytes *bytes, size_t n)
{
    size_t room = n > 2 * bytes->room ? n : 2 * bytes->room;
    uint8_t *at = realloc(bytes->at, room);
    if (at == NULL)
        return failed("no memory");
    bytes->at = at;
    bytes->room = room;
    return 1;
}

/* All of the input is needed before the first line: a length that is no multiple of 4 is refused alone. */
static int read_all(struct bytes *input)
{
    while (!feof(stdin)) {
        if (input->length == input->room && !grow(input, PIECE))
            return 0;
        input->length += fread(input->at + input->length, 1, input->room - input->length, stdin);
        if (ferror(stdin))
            return failed("cannot read");
    }
    return 1;
}

/* Writes the text of n bytes, of which so many words are accepted. With room for the longest, 23 characters a word and
   22 for a refusal, the library need not count a whole block's text first. */
static int write_text(const uint8_t *bytes, size_t n, size_t words, struct bytes *text)
{
    size_t longest = 23 * words + 22;
    if (longest > text->room && !grow(text, longest))
        return 0;
    text->length = fadc250_list(bytes, n, text->at, text->room);
    return fwrite(text->at, 1, text->length, stdout) == text->length || failed("cannot write");
}

int main(void)
{
    struct bytes input = {0}, text = {0};
    if (!read_all(&input))
        return 1;
    for (size_t at = 0, n; at < input.length; at += n) {
        uint64_t answer = fadc250_check(input.at + at, input.length - at);
        size_t words = (uint32_t)answer;
        n = answer >> 32 == 0 ? 4 * words : input.length - at; /* a refused block is the last */
        if (!write_text(input.at + at, n, words, &text))
            return 1;
    }
    return fflush(stdout) == 0 || failed("cannot write") ? 0 : 1;
}
