/* An exporter's host in a page: it reads a partner's lines, writes the line of an edge list, compares edge lists and packs one, and says each refusal in words. All is of
 * edition 1; at the end it reads a line of edition 2, by the function that takes the edition, and reads, writes and compares skeletons with named atoms.
 *
 *   ./install DIR
 *   cc examples/host.c $(PKG_CONFIG_PATH=DIR/lib/pkgconfig pkg-config --cflags --libs zurkhovel)
 *
 * It compiles as C and as C++. examples/host.expected is what it writes. */
#include <stdio.h>
#include <string.h>
#include <zurkhovel.h>

/* 2-methylpentane, the same under other numbers, hexane, and a list that goes round in a ring. */
static const uint8_t branched[] = {1, 2, 2, 3, 3, 4, 4, 5, 2, 6}, renumbered[] = {6, 5, 5, 4, 4, 3, 3, 2, 5, 1};
static const uint8_t chain[] = {1, 2, 2, 3, 3, 4, 4, 5, 5, 6}, ring[] = {1, 2, 2, 3, 3, 4, 4, 1, 5, 6};

/* Whether the answer is a refusal, which is said then. */
static int refused(uint32_t answer)
{
    if (!zk_refused(answer))
        return 0;
    printf("refusal %u", (unsigned)zk_number(answer));
    if (zk_place(answer) != 0)
        printf(" at %u", (unsigned)zk_place(answer));
    if (zk_list_of(answer) == 2)
        printf(" of the second list");
    printf(": %s\n", zk_words(zk_number(answer)));
    return 1;
}

static void print_digits(const uint8_t *digits, uint32_t count)
{
    uint32_t i;
    printf("%u digits", (unsigned)count);
    for (i = 0; i < count; i++)
        printf(" %u", (unsigned)digits[i]);
    printf("\n");
}

static void read_line(const char *line)
{
    uint8_t digits[ZK_DIGITS];
    uint32_t answer = zk_read_line((const uint8_t *)line, strlen(line), digits, sizeof digits);
    printf("read %.*s: ", (int)strcspn(line, "\n"), line);
    if (!refused(answer))
        print_digits(digits, answer);
}

static void read_line_of(unsigned edition, const char *line)
{
    uint8_t digits[ZK_DIGITS];
    uint32_t answer = zk_read_line_edition(edition, (const uint8_t *)line, strlen(line), digits, sizeof digits);
    printf("read in edition %u %.*s: ", edition, (int)strcspn(line, "\n"), line);
    if (!refused(answer))
        print_digits(digits, answer);
}

static void write_line(const char *name, size_t n, const uint8_t *edges, size_t len)
{
    uint8_t line[ZK_LINE];
    uint32_t answer = zk_write_line(n, edges, len, line, sizeof line);
    printf("write %s: ", name);
    if (!refused(answer))
        fwrite(line, 1, answer, stdout); /* the line has its line feed */
}

static void print_same(uint32_t answer)
{
    if (!refused(answer))
        printf("%s\n", answer == 1 ? "the same skeleton" : "not the same skeleton");
}

static void compare(const char *name, const uint8_t *one, const uint8_t *other, size_t len)
{
    printf("compare %s: ", name);
    print_same(zk_same_skeleton(6, one, len, 6, other, len));
}

static void pack(const char *name, size_t root, size_t room)
{
    uint8_t packed[ZK_PACKED];
    uint32_t i, answer = zk_pack(6, branched, sizeof branched, root, packed, room);
    printf("pack %s: ", name);
    if (refused(answer))
        return;
    for (i = 0; i < answer; i++)
        printf("%02x", (unsigned)packed[i]);
    printf("\n");
}

static void read_named(const char *line)
{
    uint8_t digits[ZK_DIGITS], letters[ZK_LETTERS];
    uint32_t answer = zk_named_read_line((const uint8_t *)line, strlen(line), digits, sizeof digits, letters, sizeof letters);
    printf("read named %.*s: ", (int)strcspn(line, "\n"), line);
    if (refused(answer))
        return;
    printf("%.*s, ", (int)answer, (const char *)letters); /* as many letters as digits */
    print_digits(digits, answer);
}

/* Letter v is that of vertex v. */
static void write_named(const char *name, const uint8_t *edges, const char *letters)
{
    uint8_t line[ZK_NAMED_LINE];
    size_t n = strlen(letters), pairs;
    uint32_t answer = zk_named_write_line(n, edges, 2 * (n - 1), (const uint8_t *)letters, n, line, sizeof line, &pairs);
    printf("write named %s: ", name);
    if (!refused(answer))
        fwrite(line, 1, answer, stdout);
}

/* Two chains of four atoms. */
static void compare_named(const char *name, const char *one, const char *other)
{
    size_t pairs;
    printf("compare named %s: ", name);
    print_same(zk_named_same_skeleton(4, chain, 6, (const uint8_t *)one, 4, 4, chain, 6, (const uint8_t *)other, 4, &pairs));
}

int main(void)
{
    printf("zurkhovel %s\n", ZK_VERSION);
    read_line("6 220010\n");
    read_line("6 2200,10\n");
    read_line("4 2010\n");
    read_line("6 311000\n");
    read_line("1 0");
    write_line("2-methylpentane", 6, branched, sizeof branched);
    write_line("a ring", 6, ring, sizeof ring);
    write_line("with an edge too few", 6, branched, sizeof branched - 2);
    compare("2-methylpentane renumbered", branched, renumbered, sizeof branched);
    compare("2-methylpentane and hexane", branched, chain, sizeof branched);
    compare("2-methylpentane and a ring", branched, ring, sizeof branched);
    pack("at vertex 2", 2, ZK_PACKED);
    pack("at vertex 7", 7, ZK_PACKED);
    pack("into one byte", 2, 1);
    read_line_of(1, "10 9000000000\n");
    read_line_of(2, "10 9000000000\n");
    read_line_of(3, "10 9000000000\n");
    read_named("2 10 OC 1 0 1\n");
    read_named("2 10 CO 1 0 1\n");
    read_named("2 10 OC 0 1 1\n");
    read_named("4 3000 OCCC 3 0 1\n");
    read_named("2 10\n");
    write_named("methanol", chain, "CO");
    write_named("with an O that has three neighbours", branched, "COCCCC");
    compare_named("propanol renumbered", "CCCO", "OCCC");
    compare_named("propanol and methoxyethane", "CCCO", "COCC");
    return 0;
}
