/* The independent second program: the library's exported calls against the oracle, piece by piece.
 *
 *   second [--seed SEED] PIECE...                  all of them where PIECE is `all`
 *   mocked [--seed SEED] [--wrong NAME] PIECE...   the same with mock.c in the library's place
 *   mocked --wrongs                                the wrong answers, each behind the piece that must catch it
 *
 * `mocked` is compiled with -DMOCKED. Exits 0 only when all answers agreed, 2 where an argument is wrong. */
#include "second.h"

#include <inttypes.h>
#include <stdio.h>
#include <stdlib.h>
#include <string.h>

#include "check.h"

static const struct {
    const char *name;
    void (*run)(void);
} pieces[] = {
    {"code", piece_code},           {"edges", piece_edges}, {"form", piece_form},         {"bits", piece_bits},
    {"adjacency", piece_adjacency}, {"lines", piece_lines}, {"vertices", piece_vertices},
    {"maps", piece_maps},           {"named", piece_named}, {"named_lines", piece_named_lines},
};

enum { count = sizeof pieces / sizeof *pieces };

static int chosen[count];

/* Whether there is a piece of this name; it is to run. */
static int choose(const char *name)
{
    int found = 0;
    for (size_t i = 0; i < count; i++)
        if (strcmp(name, pieces[i].name) == 0 || strcmp(name, "all") == 0)
            found = chosen[i] = 1;
    return found;
}

static int wrong_argument(const char *argument)
{
    fprintf(stderr, "second: %s is no piece and no option here\n", argument);
    return 2;
}

int main(int argc, char **argv)
{
    uint64_t seed = 20011, total = 0;
    setvbuf(stdout, NULL, _IOLBF, 0);
    for (int i = 1; i < argc; i++) {
        int more = i + 1 < argc;
        if (more && strcmp(argv[i], "--seed") == 0)
            seed = strtoull(argv[++i], NULL, 0);
#ifdef MOCKED
        else if (strcmp(argv[i], "--wrongs") == 0) {
            print_wrongs();
            return 0;
        } else if (more && strcmp(argv[i], "--wrong") == 0) {
            if (!choose_wrong(argv[++i]))
                return wrong_argument(argv[i]);
        }
#endif
        else if (!choose(argv[i]))
            return wrong_argument(argv[i]);
    }
    printf("seed %" PRIu64 "\n", seed);
    for (size_t i = 0; i < count; i++) {
        if (!chosen[i])
            continue;
        begin_piece(pieces[i].name, seed);
        pieces[i].run();
        printf("%-10s %" PRIu64 " cases agree\n", pieces[i].name, cases_of_piece());
        total += cases_of_piece();
    }
    printf("%-10s %" PRIu64 " cases agree\n", "total", total);
    return 0;
}
