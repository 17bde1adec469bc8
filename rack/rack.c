/* mpirun -n K+1 rack WORDS: the dispatcher's commands on a basin of K blocks, a rank for each block and one coordinator (docs/RACK.md).
 * Words, answers, files and the save rule are those of bin/dispatch. */
#include "rack.h"

#include <errno.h>
#include <mpi.h>
#include <stdlib.h>
#include <string.h>

enum { DONE = 0, NO = 1, ERROR = 2 };
/* The moves of a balance are at most half the sum over pairs of blocks of the difference of their counts (Demands.MovesEnd): eight empty blocks and
 * eight of 2,048 volumes make 8 * 8 * 2048 / 2. */
enum { MOST_REQUESTS = 16384, MOST_MOVES = 65536, INPUT_ROOM = 524288 };

static uint64_t blocks, mesh[MOST_BLOCKS * DMAP_WORDS], scratch[DMAP_SCRATCH];
static uint32_t viewers; /* bit b: block b is a viewer's */
static struct { bool dry, whole; uint64_t every; const char *log; } options;
static FILE *journal;
static uint64_t rounds, unsaved; /* rounds so far; those that moved a cell since the last save */

static const char help[] =
    "rack keeps a basin of K blocks as dispatch does, a rank for each block and one coordinator: mpirun -n K+1 rack WORDS\n"
    "  rack check            a line for each block, and whether the basin is sound\n"
    "  rack play             requests 'from to serial' on standard input, one a line\n"
    "  rack balance ORACLE   moves until no block has two cells more than another, or none may go\n"
    "  rack measure          plays requests, saves nothing, and tells where the time of a round goes\n"
    "  rack help             this\n"
    "ORACLE is one of: all; box x0 y0 z0 x1 y1 z1; plane axis value (decimals, as -2.5 or 1e-3; axis 0, 1 or 2)\n"
    "play and balance take --dry-run: nothing is saved; --every N: saved every N rounds; --log FILE: each round's outcome and time;\n"
    "play takes --all-or-nothing: one refusal, and nothing is saved\n";

static int wrong_words(const char *usage) {
    fprintf(stderr, "error: the words are not what this command takes: rack %s\n", usage);
    return ERROR;
}

/* A BASIN IN THE COORDINATOR'S MEMORY */

static bool fetch_all(void) {
    for (uint64_t b = 0; b < blocks; b++)
        if (!fetch(b, mesh))
            return false;
    return true;
}

static uint32_t asked(uint64_t k) { return dmap_check_mesh(mesh, k * DMAP_WORDS, viewers, scratch, DMAP_SCRATCH); }

/* The first block that has a dart critical with block m; how many there are where none has. */
static uint64_t first_naming(uint64_t m) {
    for (uint64_t b = 0; b < blocks; b++)
        for (uint64_t p = 0; p < mesh[b * DMAP_WORDS + 2]; p++)
            if (mesh[b * DMAP_WORDS + 8 + 8 * p + 3] == 2 + 4 * m)
                return b;
    return blocks;
}

/* Which files a refusal is about. */
static void say_where(uint32_t question) {
    uint64_t b = 0;
    if (question == DMAP_NOT_AN_IMAGE || question == DMAP_BLOCK_NUMBERS || question == DMAP_SERIALS_REPEATED) {
        while (b + 1 < blocks && asked(b + 1) != question)
            b++;
        fputs(block_name(b).text, stdout);
        if (question == DMAP_NOT_AN_IMAGE)
            printf(", with %u darts", (unsigned)figures_of(mesh + b * DMAP_WORDS).darts);
        return;
    }
    for (uint64_t m = blocks; m < MOST_BLOCKS && question == DMAP_LABELS_UNPAIRED; m++)
        if ((b = first_naming(m)) < blocks) {
            printf("%s is missing, and %s names it", block_name(m).text, block_name(b).text);
            return;
        }
    fputs("the blocks together", stdout);
}

static bool is_sound(void) {
    uint32_t question = asked(blocks);
    if (question == DMAP_SERVED)
        return true;
    printf("refused %u: ", (unsigned)question);
    say_where(question);
    printf(": %s\n", meaning(question));
    return false;
}

static int check(void) {
    enum found found = read_basin(&viewers);
    if (found != BLOCKS)
        return found == REFUSED ? NO : ERROR;
    if (!fetch_all())
        return ERROR;
    for (uint64_t b = 0; b < blocks; b++) {
        struct figures f = figures_of(mesh + b * DMAP_WORDS);
        uint64_t number = mesh[b * DMAP_WORDS];
        printf("block %u: %u darts, %u volumes in %u piece%s, %u critical faces, counter %u%s\n", (unsigned)b, (unsigned)f.darts,
               (unsigned)f.volumes, (unsigned)f.pieces, f.pieces == 1 ? "" : "s", (unsigned)f.critical, (unsigned)f.counter,
               number < MOST_BLOCKS && viewers >> number & 1 ? ", viewer" : "");
    }
    if (!is_sound())
        return NO;
    puts("sound");
    return DONE;
}

/* ROUNDS */

static struct { uint64_t outcome, changed, time; struct spent spent; } last;

static void note_round(uint64_t from, uint64_t to, uint64_t serial) {
    if (journal == NULL)
        return;
    /* The request as a line that play takes, and a remark that it passes over. */
    fprintf(journal, "%llu %llu %llu\n# ", (unsigned long long)from, (unsigned long long)to, (unsigned long long)serial);
    if (last.outcome == 0)
        fputs("moved", journal);
    else if (last.outcome == ALTERED)
        fputs("altered on the way", journal);
    else if (last.outcome == UNFINISHED)
        fputs("not finished", journal);
    else
        fprintf(journal, "refused %u", (unsigned)last.outcome);
    fprintf(journal, ", %llu ns, calls %llu ns, transfer %llu bytes, %llu updates %llu bytes\n", (unsigned long long)last.time,
            (unsigned long long)last.spent.calls, (unsigned long long)last.spent.transfer, (unsigned long long)last.spent.updates,
            (unsigned long long)last.spent.update);
    fflush(journal);
}

/* One round: the donor is asked, and tells what it came to once all nodes that take part have answered. */
static uint64_t play_round(uint64_t from, uint64_t to, uint64_t serial) {
    uint64_t start = nanoseconds();
    memset(&last, 0, sizeof last);
    last.outcome = DMAP_MEMORY_SIZE;
    if (from < blocks) {
        put((int)from + 1, REQUEST, to, serial, 0, NULL, 0);
        struct packet p = take((int)from + 1);
        last.outcome = p.whole ? p.a : ALTERED;
        last.changed = p.b;
        if (p.whole)
            memcpy(&last.spent, p.bytes, sizeof last.spent);
    }
    last.time = nanoseconds() - start;
    rounds++;
    unsaved += last.outcome == 0;
    note_round(from, to, serial);
    return last.outcome;
}

/* A round that did not end as it must keeps all from being saved. */
static bool is_broken(uint64_t outcome) {
    const char *more = options.every > 0 ? " more" : "";
    if (outcome == ALTERED)
        fprintf(stderr, "error: round %llu: a message was altered on the way: nothing%s is saved\n", (unsigned long long)rounds, more);
    if (outcome == UNFINISHED)
        fprintf(stderr, "error: round %llu did not finish: nothing%s is saved\n", (unsigned long long)rounds, more);
    return outcome == ALTERED || outcome == UNFINISHED;
}

static bool save(void) {
    if (!save_basin())
        return false;
    unsaved = 0;
    if (journal != NULL) {
        fputs("# saved\n", journal);
        fflush(journal);
    }
    return true;
}

/* Saves where as many rounds were played as --every tells. */
static bool save_now_and_then(void) { return options.every == 0 || rounds % options.every != 0 || unsaved == 0 || save(); }

static bool save_at_end(void) {
    if (options.dry) {
        puts("# dry run: nothing saved");
        return true;
    }
    return unsaved == 0 || save();
}

/* PLAY */

static char input[INPUT_ROOM];
static uint64_t requests[MOST_REQUESTS][4]; /* from, to, serial, the number of the line */

/* The requests of standard input; how many, below 0 where the list is not to be played. */
static long read_requests(void) {
    size_t count, number = 0, n = 0;
    int error = read_open(0, (uint8_t *)input, sizeof input, &count);
    if (error == EFBIG) {
        fputs("error: more than 524287 bytes of requests: nothing is played\n", stderr);
        return -1;
    }
    if (error != 0) {
        fprintf(stderr, "error: cannot read the requests on standard input: %s\n", cause(error));
        return -1;
    }
    for (size_t at = 0; at < count;) {
        char *line = input + at, *end = memchr(line, '\n', count - at);
        number++;
        if (end == NULL) {
            fprintf(stderr, "error: line %zu is cut off, it has no line feed at its end: nothing is played\n", number);
            return -1;
        }
        at = (size_t)(end - input) + 1;
        if (*line == '#')
            continue;
        uint64_t request[3];
        enum line is = line_of(line, (size_t)(end - line), request);
        if (is == ANOTHER) {
            fprintf(stderr, "error: line %zu is no request 'from to serial': nothing is played\n", number);
            return -1;
        }
        if (is == A_BLANK)
            continue;
        if (n == MOST_REQUESTS) {
            fputs("error: more than 16384 requests: nothing is played\n", stderr);
            return -1;
        }
        memcpy(requests[n], request, sizeof request);
        requests[n++][3] = number;
    }
    return (long)n;
}

static int play(size_t count) {
    size_t moved = 0;
    if (!is_sound())
        return NO;
    for (size_t i = 0; i < count; i++) {
        const uint64_t *r = requests[i];
        uint64_t outcome = play_round(r[0], r[1], r[2]);
        if (is_broken(outcome))
            return ERROR;
        printf("line %llu: %llu %llu %llu: ", (unsigned long long)r[3], (unsigned long long)r[0], (unsigned long long)r[1], (unsigned long long)r[2]);
        if (outcome == 0)
            puts("moved");
        else
            printf("refused %u: %s\n", (unsigned)outcome, meaning((uint32_t)outcome));
        moved += outcome == 0;
        if (!save_now_and_then())
            return ERROR;
    }
    printf("# %zu of %zu moved\n", moved, count);
    if (options.whole && moved != count) {
        puts("# all or nothing: nothing saved");
        return NO;
    }
    if (!save_at_end())
        return ERROR;
    return moved == count ? DONE : NO;
}

/* BALANCE */

struct oracle { uint32_t which, axis; double low[3], high[3]; };

/* The picked cells of each block, as a next move tells them: the mean, and each count less the mean. */
static void show_picked(const char *when, const uint64_t *answer) {
    const uint64_t mean = answer[4], *surplus = answer + 5;
    printf("# %s:", when);
    for (uint64_t b = 0; b < blocks; b++)
        printf(" %llu", (unsigned long long)(mean + surplus[b]));
    printf("; mean %llu, surpluses", (unsigned long long)mean);
    for (uint64_t b = 0; b < blocks; b++)
        printf(" %lld", (long long)surplus[b]);
    putchar('\n');
}

static int balance(const struct oracle *o) {
    uint64_t answer[DMAP_ANSWER];
    if (!is_sound())
        return NO;
    for (unsigned moves = 0;; moves++) {
        uint32_t question = dmap_next_move(mesh, blocks * DMAP_WORDS, viewers, o->which, o->axis, o->low[0], o->low[1], o->low[2], o->high[0],
                                           o->high[1], o->high[2], scratch, DMAP_SCRATCH, answer, DMAP_ANSWER);
        if (question != DMAP_SERVED) {
            printf("refused %u: %s\n", (unsigned)question, meaning(question));
            return NO;
        }
        if (moves == 0)
            show_picked("before", answer);
        if (answer[0] < 2) {
            printf("# %s after %u moves\n", answer[0] == 0 ? "level" : "blocked", moves);
            break;
        }
        if (moves == MOST_MOVES) {
            fputs("error: there are more moves than a sound basin has: nothing is saved\n", stderr);
            return ERROR;
        }
        uint64_t outcome = play_round(answer[1], answer[2], answer[3]);
        if (is_broken(outcome))
            return ERROR;
        if (outcome != 0) {
            printf("refused %u: %s\n", (unsigned)outcome, meaning((uint32_t)outcome));
            return NO;
        }
        printf("%llu %llu %llu\n", (unsigned long long)answer[1], (unsigned long long)answer[2], (unsigned long long)answer[3]);
        /* Only the blocks that the round changed are fetched again. */
        for (uint64_t b = 0; b < blocks; b++)
            if (last.changed >> b & 1 && !fetch(b, mesh))
                return ERROR;
        if (!save_now_and_then())
            return ERROR;
    }
    show_picked("after", answer);
    return save_at_end() ? DONE : ERROR;
}

/* MEASURE: rounds, and between them ping-pongs of the same sizes: of a request and its answer, of the transfer, of an update. */

static uint64_t there_and_back(uint64_t from, uint64_t to, uint64_t bytes) {
    put((int)from + 1, PING, bytes, to, 0, NULL, 0);
    return take((int)from + 1).b;
}

static uint64_t asked_and_answered(uint64_t from) {
    uint64_t start = nanoseconds();
    put((int)from + 1, ECHO, 0, 0, 0, NULL, 0);
    take((int)from + 1);
    return nanoseconds() - start;
}

static int ascending(const void *one, const void *other) {
    uint64_t a = *(const uint64_t *)one, b = *(const uint64_t *)other;
    return (a > b) - (a < b);
}

/* Times of one kind, and the one below which a part of them lies, in microseconds. */
struct times { uint64_t of[MOST_REQUESTS], sum; size_t count; };

static void add(struct times *t, uint64_t time) { t->of[t->count++] = time, t->sum += time; }

static double below(struct times *t, size_t part, size_t of) {
    qsort(t->of, t->count, sizeof t->of[0], ascending);
    return t->count == 0 ? 0.0 : (double)t->of[t->count * part / of] / 1e3;
}

static int measure(size_t count) {
    static struct times whole, path, asking, sending, telling;
    uint64_t transfer = 0, updates = 0, update = 0;
    if (!is_sound())
        return NO;
    for (size_t i = 0; i < count; i++) {
        uint64_t from = requests[i][0], to = requests[i][1];
        if (play_round(from, to, requests[i][2]) != 0)
            continue;
        add(&whole, last.time), add(&path, last.spent.path);
        transfer += last.spent.transfer, updates += last.spent.updates, update += last.spent.update;
        add(&asking, asked_and_answered(from));
        add(&sending, there_and_back(from, to, last.spent.transfer));
        uint64_t relatives = last.changed & ~((uint64_t)1 << from) & ~((uint64_t)1 << to);
        for (uint64_t b = 0; b < blocks && last.spent.updates > 0; b++)
            if (relatives >> b & 1) {
                add(&telling, there_and_back(from, b, last.spent.update / last.spent.updates));
                break;
            }
    }
    if (whole.count == 0)
        return wrong_words("measure, with requests of which one at least is served");
    double rounds = (double)whole.count, middle = below(&whole, 1, 2), calls = below(&path, 1, 2);
    printf("| %u | %zu | %.0f | %.0f | %.0f | %.0f | %.0f %% | %.0f | %.0f | %.0f | %.0f | %.1f | %.0f |\n", (unsigned)blocks, whole.count,
           1e9 * rounds / (double)whole.sum, middle, below(&whole, 9, 10), calls, 100.0 * calls / middle, below(&asking, 1, 2), below(&sending, 1, 2),
           below(&telling, 1, 2), (double)transfer / rounds, (double)updates / rounds, updates == 0 ? 0.0 : (double)update / (double)updates);
    return DONE;
}

/* A COMMAND */

enum command { CHECK, PLAY, BALANCE, MEASURE };

static int carry_out(enum command c, size_t count, const struct oracle *o) {
    enum found found = read_basin(&viewers);
    if (found != BLOCKS)
        return found == REFUSED ? NO : ERROR;
    if (!fetch_all())
        return ERROR;
    return c == PLAY ? play(count) : c == BALANCE ? balance(o) : measure(count);
}

/* As a reader, or while this run alone writes and once a save that was cut short is finished or forgotten. */
static int run(enum command c, size_t count, const struct oracle *o) {
    if (options.log != NULL && (journal = fopen(options.log, "a")) == NULL) {
        fprintf(stderr, "error: cannot write %s: %s\n", options.log, cause(errno));
        return ERROR;
    }
    if (options.dry)
        return carry_out(c, count, o);
    if (!lock_basin())
        return ERROR;
    int status = mend_basin() ? carry_out(c, count, o) : ERROR;
    unlock_basin();
    return status;
}

static bool is_word(const char *word, const char *is) { return strcmp(word, is) == 0; }

static bool coordinate(const char *word, double *value) {
    if (decimal_in(word, value))
        return true;
    fprintf(stderr, "error: '%s' is no coordinate: at most 15 digits, a point only between digits, a power of ten from -22 to 22, as -2.5 or 1e-3\n", word);
    return false;
}

static int balance_words(int count, char **words) {
    static const char usage[] = "balance ORACLE [--dry-run], ORACLE one of: all; box x0 y0 z0 x1 y1 z1; plane axis value";
    struct oracle o = {0, 0, {0}, {0}};
    uint64_t axis;
    if (count == 1 && is_word(words[0], "all"))
        return run(BALANCE, 0, &o);
    if (count == 7 && is_word(words[0], "box")) {
        o.which = 1;
        for (int i = 0; i < 6; i++)
            if (!coordinate(words[1 + i], i < 3 ? &o.low[i] : &o.high[i - 3]))
                return ERROR;
        return run(BALANCE, 0, &o);
    }
    if (count == 3 && is_word(words[0], "plane") && number_in(words[1], strlen(words[1]), &axis)) {
        o.which = 2, o.axis = (uint32_t)axis;
        return coordinate(words[2], &o.low[0]) ? run(BALANCE, 0, &o) : ERROR;
    }
    return wrong_words(usage);
}

static int play_words(enum command c) {
    long count = read_requests();
    return count < 0 ? ERROR : run(c, (size_t)count, NULL);
}

/* Takes the options out of the words, wherever they stand; whether all are known. */
static bool take_options(int *count, char **words) {
    int n = 0;
    for (int i = 0; i < *count; i++) {
        const char *w = words[i];
        if (strncmp(w, "--", 2) != 0)
            words[n++] = words[i];
        else if (is_word(w, "--dry-run"))
            options.dry = true;
        else if (is_word(w, "--all-or-nothing"))
            options.whole = true;
        else if (is_word(w, "--log") && i + 1 < *count)
            options.log = words[++i];
        else if (is_word(w, "--every") && i + 1 < *count && number_in(words[i + 1], strlen(words[i + 1]), &options.every) && options.every > 0)
            i++;
        else {
            fprintf(stderr, "error: unknown word '%s': rack help tells what there is\n", w);
            return false;
        }
    }
    *count = n;
    return true;
}

static int command(int count, char **words) {
    if (!take_options(&count, words))
        return ERROR;
    if (count == 0 || is_word(words[0], "help")) {
        fputs(help, stdout);
        return DONE;
    }
    bool plain = !options.dry && !options.whole && options.every == 0 && options.log == NULL;
    if (blocks < 1 || blocks > MOST_BLOCKS) {
        fputs("error: a basin has 1 to 16 blocks, and a run one rank more: mpirun -n 2 to 17\n", stderr);
        return ERROR;
    }
    if (options.every > 0 && (options.dry || options.whole)) {
        fputs("error: --every saves: not with --dry-run or --all-or-nothing\n", stderr);
        return ERROR;
    }
    if (is_word(words[0], "check"))
        return count == 1 && plain ? check() : wrong_words("check");
    if (is_word(words[0], "play"))
        return count == 1 ? play_words(PLAY) : wrong_words("play [--dry-run] [--all-or-nothing] [--every N] [--log FILE]");
    if (is_word(words[0], "measure")) {
        if (count != 1 || options.whole || options.every > 0)
            return wrong_words("measure [--log FILE]");
        options.dry = true;
        return play_words(MEASURE);
    }
    if (options.whole) {
        fputs("error: only play takes --all-or-nothing\n", stderr);
        return ERROR;
    }
    if (is_word(words[0], "balance"))
        return balance_words(count - 1, words + 1);
    fputs("error: unknown command: rack help tells what there is\n", stderr);
    return ERROR;
}

int main(int argc, char **argv) {
    int rank, ranks, status = DONE;
    MPI_Init(&argc, &argv);
    open_wire(&rank, &ranks);
    blocks = (uint64_t)ranks - 1;
    if (rank == 0) {
        open_nodes(blocks);
        status = command(argc - 1, argv + 1);
        fflush(stdout);
        for (int b = 1; b < ranks; b++)
            put(b, END, 0, 0, 0, NULL, 0);
    } else
        serve((uint64_t)rank - 1, blocks);
    MPI_Finalize();
    return status;
}
