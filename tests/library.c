/* Drives the C library for tests/library.py, which says how it is compiled.
 *
 *     library run WORDS..               converts as xbrl-json does for these words
 *     library calls N META TYPES ..     converts N times, and counts what is left of the memory
 *     library refuse META TYPES ..      refuses each request for memory in turn
 *     library threads N META TYPES ..   converts in N threads at once, 50 times each
 *
 * META, TYPES and what follows are files; `-` is a file that is not there. `run` leaves what a
 * library cannot do to the program that the variable PROGRAM names: words that are not about a
 * conversion, and files that are not there. It writes `L` to the file that the variable COUNT names
 * if it asked the library, and else `P`. The other three print one line, and end with status 1 if
 * something is wrong. The variable LAYOUT may have the number of a layout for them.
 *
 * The linker's option --wrap puts the functions below instead of malloc, realloc and free.
 */
#define _GNU_SOURCE
#include <dirent.h>
#include <errno.h>
#include <fcntl.h>
#include <pthread.h>
#include <stdio.h>
#include <string.h>
#include <sys/stat.h>
#include <unistd.h>

#include "xbrl_json.h"

enum { MOST_FILES = 20000, LARGEST = 400000000 };

/* ---- memory: requests of the library, counted while `inside` is set */

extern void *__real_malloc(size_t);
extern void *__real_realloc(void *, size_t);
extern void __real_free(void *);
void *__wrap_malloc(size_t);
void *__wrap_realloc(void *, size_t);
void __wrap_free(void *);

static __thread volatile int inside;
static long requests, live, refused_at;

#ifdef WRAPPED
static int refuses(void) {
    return inside && __atomic_add_fetch(&requests, 1, __ATOMIC_SEQ_CST) == refused_at;
}

static void count(long change) {
    if (inside) __atomic_add_fetch(&live, change, __ATOMIC_SEQ_CST);
}

void *__wrap_malloc(size_t size) {
    void *at = refuses() ? NULL : __real_malloc(size);
    if (at) count(1);
    return at;
}

void *__wrap_realloc(void *old, size_t size) {
    void *at = refuses() ? NULL : __real_realloc(old, size);
    if (at && !old) count(1);
    return at;
}

void __wrap_free(void *at) {
    if (at) count(-1);
    __real_free(at);
}
#endif

/* ---- files */

static xbrl_json_file files[MOST_FILES];
static struct stat about[MOST_FILES];
static size_t file_count;
static char *folders[MOST_FILES];
static size_t folder_count;
static int has_pipe;

static xbrl_json_text text_of(const char *path) {
    return (xbrl_json_text){(const uint8_t *)path, strlen(path)};
}

static const xbrl_json_file *file_at(const char *path) {
    for (size_t i = 0; i < file_count; i++)
        if (!strcmp((const char *)files[i].path.at, path)) return &files[i];
    return NULL;
}

/* Reads a file. Returns whether it can be read. A pipe is left to the program, as it has no second
 * reading. */
static int put(const char *path) {
    struct stat *it = &about[file_count];
    if (stat(path, it) || !S_ISREG(it->st_mode) || it->st_size > LARGEST) return 0;
    int file = open(path, O_RDONLY);
    if (file < 0) return 0;
    size_t room = (size_t)it->st_size + 4096, length = 0;
    uint8_t *at = malloc(room);
    ssize_t more;
    while ((more = read(file, at + length, room - length)) > 0)
        if ((length += (size_t)more) == room) at = realloc(at, room *= 2);
    close(file);
    if (more < 0 || file_count == MOST_FILES - 1) return 0;
    files[file_count++] = (xbrl_json_file){text_of(strdup(path)), {at, length}};
    return 1;
}

/* Reads all files below a folder, whose path ends with a slash or is empty. */
static void put_below(const char *folder) {
    DIR *entries = opendir(*folder ? folder : ".");
    struct dirent *entry;
    while (entries && (entry = readdir(entries))) {
        char path[8192];
        struct stat it;
        if (!strcmp(entry->d_name, ".") || !strcmp(entry->d_name, "..")) continue;
        snprintf(path, sizeof path - 1, "%s%s", folder, entry->d_name);
        if (stat(path, &it)) continue;
        if (S_ISDIR(it.st_mode)) {
            if (folder_count < MOST_FILES) folders[folder_count++] = strdup(path);
            put_below(strcat(path, "/"));
        } else if (S_ISREG(it.st_mode)) {
            if (!file_at(path)) put(path);
        } else {
            has_pipe = 1;
        }
    }
    if (entries) closedir(entries);
}

/* ---- a call */

static const char *meta, *types;
static uint32_t layout = XBRL_JSON_COMPACT;

static void convert(xbrl_json_answer *answer) {
    inside = 1;
    uint32_t status = xbrl_json_convert(files, file_count, (const uint8_t *)meta, strlen(meta),
                                        (const uint8_t *)types, strlen(types), layout, answer);
    inside = 0;
    if (status != answer->status) abort();
}

static void let_go(xbrl_json_answer *answer) {
    inside = 1;
    xbrl_json_free(answer);
    inside = 0;
}

static int same(xbrl_json_text a, xbrl_json_text b) {
    return a.len == b.len && !memcmp(a.at, b.at, a.len);
}

static int same_answer(const xbrl_json_answer *a, const xbrl_json_answer *b) {
    return a->status == b->status && same(a->document, b->document) && same(a->lines, b->lines) &&
           same(a->faults, b->faults);
}

static int begins(xbrl_json_text whole, xbrl_json_text part) {
    return part.len <= whole.len && !memcmp(whole.at, part.at, part.len);
}

static int has(xbrl_json_text text, const char *word) {
    return memmem(text.at, text.len, word, strlen(word)) != NULL;
}

/* ---- the words of the program */

static void note(const char *what) {
    const char *path = getenv("COUNT");
    int file = path ? open(path, O_WRONLY | O_CREAT | O_APPEND, 0600) : -1;
    if (file >= 0 && write(file, what, 1) != 1) abort();
    if (file >= 0) close(file);
}

static int by_program(char **words) {
    note("P");
    words[0] = getenv("PROGRAM");
    execv(words[0], words);
    return 9;
}

/* Writes a text to a file. */
static void write_text(FILE *to, xbrl_json_text text) {
    if (fwrite(text.at, 1, text.len, to) != text.len || fflush(to)) abort();
}

/* Writes the lines. Without --explain those of explanations, which begin with blanks, are left
 * out. */
static void write_lines(xbrl_json_text lines, int explain) {
    for (size_t at = 0; at < lines.len;) {
        const uint8_t *from = lines.at + at, *end = memchr(from, '\n', lines.len - at);
        size_t length = end ? (size_t)(end - from) + 1 : lines.len - at;
        if (explain || length < 4 || memcmp(from, "    ", 4))
            write_text(stderr, (xbrl_json_text){from, length});
        at += length;
    }
}

/* Returns whether the lines are about a folder. The program can open it, but not read it. */
static int is_about_folder(xbrl_json_text lines) {
    for (size_t i = 0; i < folder_count; i++) {
        char line[8300];
        snprintf(line, sizeof line, " %s\n", folders[i]);
        if (has(lines, line)) return 1;
    }
    return 0;
}

/* Returns whether a file is among those that were read, by whatever name. */
static int is_read(const char *path) {
    struct stat it;
    if (stat(path, &it)) return 0;
    for (size_t i = 0; i < file_count; i++)
        if (about[i].st_dev == it.st_dev && about[i].st_ino == it.st_ino) return 1;
    return 0;
}

static int run(char **words) {
    const char *out = NULL, *faults = NULL;
    char *split[200];
    size_t at = 0;
    int explain = 0;
    for (char **word = words + 1; *word && at < 198; word++) {
        char *equals = strncmp(*word, "--", 2) ? NULL : strchr(*word, '=');
        split[at++] = equals ? strndup(*word, (size_t)(equals - *word)) : *word;
        if (equals) split[at++] = equals + 1;
    }
    split[at] = NULL;
    for (char **word = split; *word; word++) {
        const char *value = word[1];
        long number = value ? strtol(value, NULL, 10) : 0;
        if (!strcmp(*word, "--explain")) explain = 1;
        else if (**word != '-' && !meta) meta = *word;
        else if (!value) return by_program(words);
        else if (!strcmp(*word, "--types") && !types) types = *++word;
        else if (!strcmp(*word, "--out") && !out) out = *++word;
        else if (!strcmp(*word, "--faults") && !faults) faults = *++word;
        else if (!strcmp(*word, "--layout") && !strcmp(value, "lines")) layout = XBRL_JSON_LINES, word++;
        else if (!strcmp(*word, "--layout") && !strcmp(value, "compact")) word++;
        else if (!strcmp(*word, "--workers") && number > 0 && number <= 64) word++;
        else if (!strcmp(*word, "--ring") && number > 0 && number <= 65536) word++;
        else return by_program(words);
    }
    if (!meta || !types || !put(meta) || !put(types)) return by_program(words);
    char *folder = strdup(meta), *slash = strrchr(folder, '/');
    *(slash ? slash + 1 : folder) = 0;
    put_below(folder);
    if (has_pipe) return by_program(words);
    FILE *document = stdout, *records = NULL;
    xbrl_json_answer answer = XBRL_JSON_ANSWER;
    convert(&answer);
    if (is_about_folder(answer.lines)) return by_program(words);
    /* The program gives the system's reason, and makes no output first. */
    if (answer.status == 3 && (explain || out)) return by_program(words);
    if (out && faults && !strcmp(out, faults)) return by_program(words);
    if ((out && is_read(out)) || (faults && is_read(faults))) return by_program(words);
    if (out && !(document = fopen(out, "w"))) return by_program(words);
    if (faults && !(records = fopen(faults, "w"))) return by_program(words);
    note("L");
    write_text(document, answer.document);
    if (records) write_text(records, answer.faults);
    write_lines(answer.lines, explain);
    int status = (int)answer.status;
    let_go(&answer);
    return status;
}

/* ---- many calls, refused requests, threads */

static int calls(long number) {
    xbrl_json_answer first = XBRL_JSON_ANSWER;
    long wrong = 0, before;
    convert(&first);
    before = live;
    for (long i = 0; i < number; i++) {
        xbrl_json_answer answer = XBRL_JSON_ANSWER;
        convert(&answer);
        wrong += !same_answer(&first, &answer);
        let_go(&answer);
    }
    wrong += live != before;
    uint32_t status = first.status;
    let_go(&first);
    printf("status %u, %ld calls, %ld blocks left, %ld wrong\n", status, number, live, wrong);
    return wrong != 0 || live != 0;
}

/* Returns the place of the next record of a file of faults, from a record's begin on. No example has
 * a line's end in a field. */
static size_t next_record(xbrl_json_text faults, size_t at) {
    while (at < faults.len && faults.at[at++] != '\n');
    return at;
}

/* Returns the length of a record's first five fields. No example has a quoted one. */
static size_t head(xbrl_json_text faults, size_t at) {
    size_t end = at;
    for (int commas = 0; commas < 5 && end < faults.len; end++) commas += faults.at[end] == ',';
    return end - at;
}

/* Returns whether each record of some faults has the first five fields of one of all, in the same
 * order. Memory may run out for the other fields, and for the records of a table after the first. */
static int some_heads(xbrl_json_text all, xbrl_json_text some) {
    size_t i = 0, j = 0;
    while (j < some.len) {
        size_t length = head(some, j);
        while (i < all.len && (head(all, i) != length || memcmp(all.at + i, some.at + j, length)))
            i = next_record(all, i);
        if (i == all.len) return 0;
        i = next_record(all, i), j = next_record(some, j);
    }
    return 1;
}

/* Returns the place of the next line that does not begin with blanks, from a line's begin on. */
static size_t next_line(xbrl_json_text lines, size_t at) {
    while (at < lines.len && lines.at[at] == ' ')
        while (at < lines.len && lines.at[at++] != '\n');
    return at;
}

/* Returns whether two texts have the same lines of faults. Memory may run out for explanations. */
static int same_faults(xbrl_json_text a, xbrl_json_text b) {
    size_t i = next_line(a, 0), j = next_line(b, 0);
    while (i < a.len && j < b.len && a.at[i] == b.at[j]) {
        int end = a.at[i++] == '\n';
        j++;
        if (end) i = next_line(a, i), j = next_line(b, j);
    }
    return i == a.len && j == b.len;
}

/* Returns whether an answer is one that the first may become if memory runs out. */
static int is_right(const xbrl_json_answer *first, const xbrl_json_answer *answer) {
    if (same_answer(first, answer)) return 1;
    if (!begins(first->document, answer->document)) return 0;
    if (answer->status == 1 && first->status == 1 && same(first->document, answer->document) &&
        same_faults(first->lines, answer->lines) && some_heads(first->faults, answer->faults))
        return 1;
    if (answer->status == 0)
        return first->status == 0 && same(first->document, answer->document) && !answer->faults.len;
    if (answer->status == 3)
        return !answer->faults.len && (!answer->lines.len || has(answer->lines, "Memory (53)") ||
                                       has(answer->lines, "Write (56)"));
    if (answer->status != 1) return 0;
    int told = has(answer->lines, "Memory (") || has(answer->faults, ",Memory,");
    int silent = !answer->lines.len || !answer->faults.len;
    return told || silent;
}

static int refuse(void) {
    xbrl_json_answer first = XBRL_JSON_ANSWER;
    long wrong = 0, most;
    requests = 0;
    convert(&first);
    most = requests;
    for (long n = 1; n <= most + 1; n++) {
        xbrl_json_answer answer = XBRL_JSON_ANSWER;
        long before = live;
        requests = 0;
        refused_at = n;
        convert(&answer);
        refused_at = 0;
        int right = is_right(&first, &answer) && (n <= most || same_answer(&first, &answer));
        if (!right)
            printf("request %ld refused: status %u, %zu of %zu bytes, %.*s\n", n, answer.status, answer.document.len,
                   first.document.len, (int)answer.lines.len, (const char *)answer.lines.at);
        let_go(&answer);
        wrong += !right || live != before;
    }
    uint32_t status = first.status;
    let_go(&first);
    printf("status %u, %ld requests refused in turn, %ld blocks left, %ld wrong\n", status, most, live, wrong);
    return wrong != 0 || live != 0 || most == 0;
}

static xbrl_json_answer wanted = XBRL_JSON_ANSWER;

static void *work(void *unused) {
    long wrong = 0;
    for (int i = 0; i < 50; i++) {
        xbrl_json_answer answer = XBRL_JSON_ANSWER;
        convert(&answer);
        wrong += !same_answer(&wanted, &answer);
        let_go(&answer);
    }
    (void)unused;
    return (void *)wrong;
}

static int threads(size_t number) {
    pthread_t all[64];
    pthread_attr_t small;
    long wrong = 0;
    convert(&wanted);
    uint32_t status = wanted.status;
    pthread_attr_init(&small);
    pthread_attr_setstacksize(&small, 256 * 1024);
    for (size_t i = 0; i < number; i++)
        if (pthread_create(&all[i], &small, work, NULL)) abort();
    for (size_t i = 0; i < number; i++) {
        void *more;
        pthread_join(all[i], &more);
        wrong += (long)more;
    }
    let_go(&wanted);
    printf("status %u, %zu threads, %ld blocks left, %ld wrong\n", status, number, live, wrong);
    return wrong != 0 || live != 0;
}

int main(int argc, char **argv) {
    if (argc > 1 && !strcmp(argv[1], "run")) return run(argv + 1);
    int given = argc > 2 && strcmp(argv[1], "refuse") ? 3 : 2;
    long number = given == 3 ? strtol(argv[2], NULL, 10) : 0;
    if (argc < given + 2) return 2;
    meta = argv[given];
    types = argv[given + 1];
    for (int i = given; i < argc; i++)
        if (strcmp(argv[i], "-") && !put(argv[i])) return 2;
    if (getenv("LAYOUT")) layout = (uint32_t)strtoul(getenv("LAYOUT"), NULL, 10);
    if (!strcmp(argv[1], "calls")) return calls(number);
    if (!strcmp(argv[1], "refuse")) return refuse();
    if (!strcmp(argv[1], "threads") && number > 0 && number <= 64) return threads((size_t)number);
    return 2;
}
