/* launcher [--hex] [--model FILE] [--] TABLE: judges one handler table, or with --rounds counts the rounds that this
 * takes; launcher [--hex] --update [--] OLD NEW ROUTINE MODEL: brings a model up to date where one routine is replaced;
 * launcher [--hex] --canonical FILE [--] TABLE: writes a table in the one way; --help says it all. */
#define _XOPEN_SOURCE 700 /* for a file that is put in the place of another */

#include "refusals.h"
#include "update.h"
#include "vangpear.h"
#include "writer.h"

#include <ctype.h>
#include <errno.h>
#include <signal.h>
#include <stdbool.h>
#include <stdio.h>
#include <stdlib.h>
#include <string.h>
#include <sys/stat.h>
#include <unistd.h>

/* One byte more than the largest table: a longer file is refused, whatever comes after. */
#define TABLE_LIMIT (VANGPEAR_LONGEST + 1)

/* How many bytes stand in a line of hexadecimal text that is written. */
#define LINE 16u

/* Hexadecimal text may have spaces and comments: this many characters are plenty for a table. */
#define TEXT_LIMIT (1u << 20)

/* A file with a model may have bytes behind the rows: no more than this in all. */
#define MODEL_LIMIT (1u << 20)

/* How many words --update has besides options. */
#define UPDATE_WORDS 4u

enum { CLEAR = 0, DONE = 0, RING = 1, REFUSED = 2, TROUBLE = 3 };

static const char help[] =
    "usage: launcher [--hex] [--rounds] [--model FILE] [--] TABLE\n"
    "       launcher [--hex] --update [--] OLD NEW ROUTINE MODEL\n"
    "       launcher [--hex] --canonical FILE [--] TABLE\n"
    "\n"
    "Judges a handler table, whose format is in docs/FORMAT.md, and prints one line: `clear`, `ring` with a routine\n"
    "and a name, or `refused` with a number. What a ring or a refusal means is said in words on standard error.\n"
    "With --rounds it prints, in the place of the verdict, `rounds` and in how many rounds the model is worked out.\n"
    "With --update it brings the model of a table up to date where one of its routines is replaced, and prints\n"
    "`done`, or `refused` with a number. That is no verdict: the new table is judged by itself.\n"
    "With --canonical it writes the canonical table of a table, the one way to write it, and prints `canonical` with\n"
    "its length in bytes, or `refused` with a number.\n"
    "\n"
    "  TABLE             a table's bytes; - for standard input\n"
    "  --rounds          counts the rounds, with the one that leaves all rows as they were\n"
    "  --model FILE      writes the model of TABLE to FILE, 65 bytes for each routine\n"
    "  --canonical FILE  writes the canonical table of TABLE to FILE, which can be TABLE\n"
    "  --update          brings MODEL up to date: the body of ROUTINE is replaced, which makes OLD into NEW\n"
    "  OLD, NEW          the table before and the table after, like TABLE; only one of them can be -\n"
    "  ROUTINE           the number of the routine, in decimal digits\n"
    "  MODEL             a file that has the model of OLD, as --model writes it, and gets that of NEW. Bytes behind\n"
    "                    the rows are kept; it has 1 MiB at most\n"
    "  --hex             tables are hexadecimal text, as in examples/, the canonical one too: two digits to a byte,\n"
    "                    with or without 0x before a byte; spaces, commas and line ends stand between bytes; #, ; or\n"
    "                    // starts a comment\n"
    "  --                ends the options: what comes after it may begin with -\n"
    "  --help, -h        this text\n"
    "\n"
    "No more of a table is read than the largest table needs. FILE and MODEL are written before anything is printed:\n"
    "a new file in the same folder is put in the place of the old one, which is still there if that fails. A refusal\n"
    "leaves them as they are.\n"
    "Exit status: 0 clear, done, canonical or rounds, 1 ring, 2 refused, 3 trouble (no such file, no hexadecimal\n"
    "text, output that cannot be written and the like).\n";

static void trouble(const char *name, const char *what)
{
    fprintf(stderr, "launcher: %s: %s\n", name, what);
}

/* Whether all that was printed is written; if it is not, that is said. */
static bool written(void)
{
    errno = 0;
    if (fflush(stdout) == 0 && !ferror(stdout)) return true;
    trouble("standard output", errno != 0 ? strerror(errno) : "it cannot be written");
    return false;
}

/* Hexadecimal text, and the place that is reached in it with the number of its line. */
struct text {
    const uint8_t *characters;
    size_t length;
    size_t at;
    unsigned long line;
};

/* The character so many places further on, or -1 behind the end. */
static int look(const struct text *text, size_t further)
{
    return further < text->length - text->at ? text->characters[text->at + further] : -1;
}

static bool at_comment(const struct text *text)
{
    int c = look(text, 0);
    return c == '#' || c == ';' || (c == '/' && look(text, 1) == '/');
}

/* Whether a word has ended here. */
static bool at_gap(const struct text *text)
{
    int c = look(text, 0);
    return c < 0 || c == ',' || isspace(c) || at_comment(text);
}

/* Goes on to the next word, over what stands between words; gives whether there is one. */
static bool next_word(struct text *text)
{
    bool comment = false;
    while (look(text, 0) >= 0) {
        int c = look(text, 0);
        comment = comment || at_comment(text);
        if (c == '\n' || c == '\r') {
            if (c == '\n' || look(text, 1) != '\n') text->line++;
            comment = false;
        } else if (!comment && !at_gap(text)) {
            return true;
        }
        text->at++;
    }
    return false;
}

/* The value of a hexadecimal digit, or -1. */
static int digit(int c)
{
    if (c >= '0' && c <= '9') return c - '0';
    if (c >= 'a' && c <= 'f') return c - 'a' + 10;
    if (c >= 'A' && c <= 'F') return c - 'A' + 10;
    return -1;
}

/* Takes one word: pairs of digits, or 0x and one pair. Gives how many bytes it was, or -1 if it is no such word. */
static long take_word(struct text *text, uint8_t *bytes)
{
    bool prefix = look(text, 0) == '0' && (look(text, 1) == 'x' || look(text, 1) == 'X');
    long count = 0;
    if (prefix) text->at += 2;
    while (!at_gap(text)) {
        int high = digit(look(text, 0));
        int low = digit(look(text, 1));
        if (high < 0 || low < 0) return -1;
        bytes[count++] = (uint8_t)(16 * high + low);
        text->at += 2;
    }
    return prefix && count != 1 ? -1 : count;
}

/* Turns hexadecimal text into bytes, in place: no byte takes less than two characters. Gives the number of bytes, or -1
 * with the number of the line that is no such text. */
static long from_hex(uint8_t *bytes, size_t length, unsigned long *line)
{
    bool mark = length >= 3 && memcmp(bytes, "\xEF\xBB\xBF", 3) == 0;
    struct text text = {bytes, length, mark ? 3 : 0, 1};
    long count = 0;
    while (next_word(&text)) {
        long more = take_word(&text, bytes + count);
        *line = text.line;
        if (more < 0) return -1;
        count += more;
    }
    return count;
}

/* Turns bytes into hexadecimal text; gives its length, three characters to a byte. */
static size_t to_hex(const uint8_t *bytes, size_t length, uint8_t *text)
{
    static const char digits[] = "0123456789ABCDEF";
    for (size_t i = 0; i < length; i++) {
        text[3 * i] = (uint8_t)digits[bytes[i] / 16];
        text[3 * i + 1] = (uint8_t)digits[bytes[i] % 16];
        text[3 * i + 2] = i % LINE == LINE - 1 || i == length - 1 ? '\n' : ' ';
    }
    return 3 * length;
}

/* Reads at most `limit` bytes of a file. Gives how many there were, or -1 with errno set. */
static long read_file(const char *name, uint8_t *bytes, size_t limit)
{
    FILE *file = strcmp(name, "-") == 0 ? stdin : fopen(name, "rb");
    if (file == NULL) return -1;
    errno = 0;
    size_t length = fread(bytes, 1, limit, file);
    int error = !ferror(file) ? 0 : errno != 0 ? errno : EIO;
    if (file != stdin) fclose(file);
    errno = error;
    return error == 0 ? (long)length : -1;
}

/* Reads the table from a file. Gives its length, or -1 if that cannot be done, which it says. */
static long read_table(const char *file, bool hex, uint8_t *bytes, size_t size)
{
    const char *name = strcmp(file, "-") == 0 ? "standard input" : file;
    long length = read_file(file, bytes, hex ? size : TABLE_LIMIT);
    if (length < 0) trouble(name, strerror(errno));
    if (length < 0 || !hex) return length;
    if (length > (long)TEXT_LIMIT) {
        trouble(name, "the text is longer than any table needs");
        return -1;
    }
    unsigned long line = 0;
    length = from_hex(bytes, (size_t)length, &line);
    if (length < 0)
        fprintf(stderr, "launcher: %s: line %lu is not hexadecimal text, two digits to a byte\n", name, line);
    return length;
}

/* Says what a ring is at. The routine's parameters are its first names; after them come those of its NEW and MIRROR
 * items, as they are written. */
static void tell_ring(const uint8_t *table, unsigned routine, unsigned name)
{
    static const char *const ordinals[] = {"first", "second", "third", "fourth", "fifth", "sixth", "seventh", "eighth"};
    unsigned parameters = table[1 + routine];
    bool parameter = name <= parameters;
    fputs("launcher: threads may come to wait for each other in a circle, at ", stderr);
    fprintf(stderr, "the %s %s of routine %u (name %u)\n", ordinals[(parameter ? name : name - parameters) - 1],
            parameter ? "parameter" : "NEW or MIRROR", routine, name);
}

/* Says that what was to be written to a file is not, and why. */
static bool unwritten(const char *name, const char *what, const char *why)
{
    fprintf(stderr, "launcher: %s: the %s is not written: %s\n", name, what, why);
    return false;
}

/* The name for a new file in the folder of `target`, as mkstemp takes it, or null if there is no memory for it. It is
 * to be freed. */
static char *beside(const char *target)
{
    static const char new_file[] = ".launcher-XXXXXX";
    const char *slash = strrchr(target, '/');
    size_t folder = slash == NULL ? 0 : (size_t)(slash - target) + 1;
    char *name = (char *)malloc(folder + sizeof new_file);
    if (name == NULL) return NULL;
    memcpy(name, target, folder);
    memcpy(name + folder, new_file, sizeof new_file);
    return name;
}

/* Writes all the bytes to an open file; gives whether that could be done, and if not, errno is set. */
static bool write_all(int file, const uint8_t *bytes, size_t length)
{
    while (length > 0) {
        ssize_t count = write(file, bytes, length);
        if (count == 0) errno = EIO;
        if (count <= 0) return false;
        bytes += count;
        length -= (size_t)count;
    }
    return true;
}

/* Writes the bytes to a new file, whose name mkstemp makes of `name`, and puts it in the place of `target`. So `target`
 * is always whole: as it was, or as it is to be. Gives whether it is as it is to be; if not, errno is set. */
static bool put(const char *target, char *name, mode_t mode, const uint8_t *bytes, size_t length)
{
    int file = mkstemp(name);
    if (file < 0) return false;
    bool good = write_all(file, bytes, length) && fchmod(file, mode) == 0 && fsync(file) == 0;
    int error = errno;
    if (close(file) != 0 && good) {
        good = false;
        error = errno;
    }
    if (good && rename(name, target) != 0) {
        good = false;
        error = errno;
    }
    if (!good) unlink(name);
    errno = error;
    return good;
}

/* The mode of a file that is made anew. */
static mode_t new_mode(void)
{
    mode_t mask = umask(0);
    umask(mask);
    return 0666 & ~mask;
}

/* Puts a file with these bytes, which words call `what`, in the place of the one with this name, or of the one that a
 * symbolic link of this name leads to, with the mode that it has. Gives whether that is done; if not, that is said. */
static bool write_file(const char *name, const char *what, const uint8_t *bytes, size_t length)
{
    struct stat old;
    bool there = stat(name, &old) == 0;
    if (!there && errno != ENOENT) return unwritten(name, what, strerror(errno));
    if (there && !S_ISREG(old.st_mode)) return unwritten(name, what, "this is no regular file");
    if (there && access(name, W_OK) != 0) return unwritten(name, what, strerror(errno));
    char *target = there ? realpath(name, NULL) : strdup(name);
    char *new_file = target == NULL ? NULL : beside(target);
    bool good = new_file != NULL && put(target, new_file, there ? old.st_mode & 07777 : new_mode(), bytes, length);
    if (!good) unwritten(name, what, strerror(errno));
    free(new_file);
    free(target);
    return good;
}

/* Prints a refusal, says what it means, behind some words, and gives the exit status. */
static int refuse(uint32_t answer, const char *words)
{
    printf("refused %u\n", (unsigned)answer);
    if (!written()) return TROUBLE;
    fprintf(stderr, "launcher: %s: %s\n", words, vangpear_refusals[answer]);
    return REFUSED;
}

/* Analyses a table, writes the model to a file unless its name is null, prints the verdict, says what it means, and
 * gives the exit status. */
static int judge(const uint8_t *table, size_t length, const char *file)
{
    uint8_t model[VANGPEAR_MODEL];
    uint32_t answer = vangpear_analyse(table, length, model, sizeof model);
    if (answer > 0 && answer < VANGPEAR_RING) return refuse(answer, "refused");
    if (file != NULL && !write_file(file, "model", model, VANGPEAR_ROW * table[0])) return TROUBLE;
    if (answer == 0) {
        puts("clear");
        return written() ? CLEAR : TROUBLE;
    }
    unsigned routine = VANGPEAR_RING_ROUTINE(answer), name = VANGPEAR_RING_NAME(answer);
    printf("ring %u %u\n", routine, name);
    if (!written()) return TROUBLE;
    tell_ring(table, routine, name);
    return RING;
}

/* Counts the rounds in which the model of a table is worked out, writes the model to a file unless its name is null,
 * prints the number, and gives the exit status. */
static int count(const uint8_t *table, size_t length, const char *file)
{
    uint8_t model[VANGPEAR_MODEL];
    uint32_t answer = vangpear_rounds(table, length, model, sizeof model);
    if (answer < VANGPEAR_ROUNDS) return refuse(answer, "refused");
    if (file != NULL && !write_file(file, "model", model, VANGPEAR_ROW * table[0])) return TROUBLE;
    printf("rounds %u\n", (unsigned)VANGPEAR_ROUNDS_NUMBER(answer));
    return written() ? DONE : TROUBLE;
}

/* What the arguments ask for. */
struct order {
    /* The table; or, with --update, the old table, the new one, the routine's number and the model's file. */
    const char *words[UPDATE_WORDS];
    size_t count;
    uint64_t routine;
    /* Where the model of a judged table is written, and where the canonical table; null for nowhere. */
    const char *model;
    const char *canonical;
    bool hex;
    bool rounds;
    bool update;
    bool help;
};

/* Reads the one table, and judges it or counts its rounds. */
static int judge_file(const struct order *order)
{
    static uint8_t table[TEXT_LIMIT + 1];
    long length = read_table(order->words[0], order->hex, table, sizeof table);
    if (length < 0) return TROUBLE;
    return order->rounds ? count(table, (size_t)length, order->model) : judge(table, (size_t)length, order->model);
}

/* Reads a model, with the bytes behind its rows. Gives the number of bytes, or -1 if that cannot be done, which it
 * says. */
static long read_model(const char *name, uint8_t *bytes, size_t size)
{
    long length = read_file(name, bytes, size);
    if (length < 0) trouble(name, strerror(errno));
    if (length <= (long)MODEL_LIMIT) return length;
    trouble(name, "it is larger than 1 MiB, and is no file with a model");
    return -1;
}

/* Which refusal a number of vangpear_update is, in words: 1 to 14 are of the old table, or of the new one. */
static const char *refused_what(uint32_t answer, const uint8_t *old_table, size_t length)
{
    if (answer > 14) return "refused";
    return vangpear_check(old_table, length) == answer ? "the old table is refused" : "the new table is refused";
}

/* Brings the model in a file up to date, prints how that came out, and gives the exit status. */
static int update_file(const struct order *order)
{
    static uint8_t old_table[TEXT_LIMIT + 1], new_table[TEXT_LIMIT + 1], model[MODEL_LIMIT + 1];
    const char *file = order->words[3];
    long old_length = read_table(order->words[0], order->hex, old_table, sizeof old_table);
    if (old_length < 0) return TROUBLE;
    long new_length = read_table(order->words[1], order->hex, new_table, sizeof new_table);
    if (new_length < 0) return TROUBLE;
    long size = read_model(file, model, sizeof model);
    if (size < 0) return TROUBLE;
    uint32_t answer = vangpear_update(old_table, (size_t)old_length, new_table, (size_t)new_length, order->routine,
                                      model, (size_t)size);
    if (answer != VANGPEAR_DONE) return refuse(answer, refused_what(answer, old_table, (size_t)old_length));
    if (!write_file(file, "model", model, (size_t)size)) return TROUBLE;
    puts("done");
    return written() ? DONE : TROUBLE;
}

/* Reads the one table, writes its canonical table to a file, prints how long that is, and gives the exit status. */
static int canonical_file(const struct order *order)
{
    static uint8_t table[TEXT_LIMIT + 1], canonical[VANGPEAR_LONGEST], text[3 * VANGPEAR_LONGEST];
    long length = read_table(order->words[0], order->hex, table, sizeof table);
    if (length < 0) return TROUBLE;
    uint32_t answer = vangpear_canonical(table, (size_t)length, canonical, sizeof canonical);
    if (answer < VANGPEAR_CANONICAL) return refuse(answer, "refused");
    size_t count = VANGPEAR_CANONICAL_LENGTH(answer);
    const uint8_t *bytes = order->hex ? text : canonical;
    size_t size = order->hex ? to_hex(canonical, count, text) : count;
    if (!write_file(order->canonical, "canonical table", bytes, size)) return TROUBLE;
    printf("canonical %zu\n", count);
    return written() ? DONE : TROUBLE;
}

/* Says how the arguments are wrong: what, and the word that is if there is one. */
static bool misused(const char *word, const char *what)
{
    fprintf(stderr, "launcher: %s%s (launcher --help says how it is used)\n", word, what);
    return false;
}

/* Takes the file's name behind an option, which is null where there is none; gives whether it makes sense. */
static bool take_file(const char *option, const char *word, const char **file)
{
    if (word == NULL || word[0] == '-') return misused(option, " needs a FILE, which does not begin with -");
    if (*file != NULL) return misused(option, " is given twice");
    *file = word;
    return true;
}

/* Takes one option; gives whether there is such an option. */
static bool take_option(const char *word, struct order *order)
{
    if (strcmp(word, "--hex") == 0) {
        order->hex = true;
    } else if (strcmp(word, "--rounds") == 0) {
        order->rounds = true;
    } else if (strcmp(word, "--update") == 0) {
        order->update = true;
    } else if (strcmp(word, "--help") == 0 || strcmp(word, "-h") == 0) {
        order->help = true;
    } else {
        return misused(word, " is no option");
    }
    return true;
}

/* Takes a number in decimal digits from a word that is not empty; gives whether it is one, and has room in 64 bits. */
static bool take_number(const char *word, uint64_t *number)
{
    uint64_t value = 0;
    for (; *word != '\0'; word++) {
        if (*word < '0' || *word > '9') return false;
        unsigned figure = (unsigned)(*word - '0');
        if (value > (UINT64_MAX - figure) / 10) return false;
        value = 10 * value + figure;
    }
    *number = value;
    return true;
}

/* Whether the words of --update make sense; takes the routine's number. */
static bool take_update(struct order *order)
{
    if (order->count != UPDATE_WORDS) return misused("", "--update takes four words, OLD NEW ROUTINE MODEL");
    if (strcmp(order->words[0], "-") == 0 && strcmp(order->words[1], "-") == 0)
        return misused("", "standard input is one table, and - is given twice");
    const char *number = order->words[2][0] != '\0' ? order->words[2] : "an empty word";
    if (!take_number(number, &order->routine))
        return misused(number, " is no ROUTINE: that is a number in decimal digits, up to 18446744073709551615");
    if (strcmp(order->words[3], "-") == 0) return misused("", "MODEL is a file that is written, and - is none");
    return true;
}

/* Whether the words as a whole make sense. */
static bool take_words(struct order *order)
{
    if (order->help) return true;
    if ((order->model != NULL) + (order->canonical != NULL) + order->update > 1)
        return misused("", "--model, --canonical and --update do not go together");
    if (order->rounds && (order->canonical != NULL || order->update))
        return misused("", "--rounds does not go together with --canonical or --update");
    if (order->update) return take_update(order);
    if (order->count == 0)
        return misused("", "usage: launcher [--hex] [[--rounds] [--model FILE] | --canonical FILE] [--] TABLE, and - "
                           "is standard input; or launcher [--hex] --update [--] OLD NEW ROUTINE MODEL");
    return order->count == 1 || misused("", "one table at a time");
}

/* Takes the arguments apart; gives whether they make sense. */
static bool parse(int argc, char **argv, struct order *order)
{
    bool options = true;
    for (int i = 1; i < argc && !order->help; i++) {
        const char *word = argv[i];
        if (!options || word[0] != '-' || word[1] == '\0') {
            if (order->count < UPDATE_WORDS) order->words[order->count] = word;
            order->count++;
        } else if (strcmp(word, "--") == 0) {
            options = false;
        } else if (strcmp(word, "--model") == 0 || strcmp(word, "--canonical") == 0) {
            const char **file = strcmp(word, "--model") == 0 ? &order->model : &order->canonical;
            if (!take_file(word, i + 1 < argc ? argv[++i] : NULL, file)) return false;
        } else if (!take_option(word, order)) {
            return false;
        }
    }
    return take_words(order);
}

int main(int argc, char **argv)
{
    struct order order = {.count = 0};
#ifdef SIGPIPE
    signal(SIGPIPE, SIG_IGN); /* so that a pipe that nobody reads is trouble like any other */
#endif
#ifdef SIGXFSZ
    signal(SIGXFSZ, SIG_IGN); /* and so is a file that may not become so large */
#endif
    if (!parse(argc, argv, &order)) return TROUBLE;
    if (order.help) {
        fputs(help, stdout);
        return written() ? CLEAR : TROUBLE;
    }
    if (order.update) return update_file(&order);
    return order.canonical != NULL ? canonical_file(&order) : judge_file(&order);
}
