// Counts the words of a text, sorts them by how often they come and then by their letters, prints the table, and exits with the
// number of different words. Freestanding C: the two calls of WASI preview 1 that it makes are imported by their names.
// README.md of this folder has the command by which words.wasm was built.

typedef unsigned int u32;

__attribute__((import_module("wasi_snapshot_preview1"), import_name("fd_write")))
u32 fd_write(u32 fd, const void *buffers, u32 count, u32 *written);

__attribute__((import_module("wasi_snapshot_preview1"), import_name("proc_exit"), noreturn))
void proc_exit(u32 code);

// a buffer of a write, as WASI preview 1 lays it out
struct buffer {
    const char *bytes;
    u32 length;
};

struct word {
    const char *letters;
    u32 length;
    u32 times;
};

enum { MOST_WORDS = 256, OUTPUT = 1 };

static const char text[] =
    "the host runs a module and the module runs its steps "
    "the host answers each call and the history keeps each answer "
    "the history of a module is the run and the run is the history";

static struct word words[MOST_WORDS];
static u32 word_count;

static int compare_letters(const struct word *a, const struct word *b) {
    for (u32 i = 0; i < a->length && i < b->length; i++) {
        if (a->letters[i] != b->letters[i])
            return a->letters[i] < b->letters[i] ? -1 : 1;
    }
    return a->length == b->length ? 0 : a->length < b->length ? -1 : 1;
}

static int compare(const struct word *a, const struct word *b) {
    if (a->times != b->times)
        return a->times > b->times ? -1 : 1;
    return compare_letters(a, b);
}

static void count_word(const char *letters, u32 length) {
    struct word word = {letters, length, 1};
    for (u32 i = 0; i < word_count; i++) {
        if (compare_letters(&words[i], &word) == 0) {
            words[i].times++;
            return;
        }
    }
    if (word_count < MOST_WORDS)
        words[word_count++] = word;
}

static void count_words(void) {
    const char *at = text;
    while (*at) {
        const char *end = at;
        while (*end && *end != ' ')
            end++;
        if (end != at)
            count_word(at, end - at);
        at = *end ? end + 1 : end;
    }
}

// a heap sort: each parent comes after its children
static void sift(u32 parent, u32 count) {
    for (u32 child = 2 * parent + 1; child < count; child = 2 * parent + 1) {
        if (child + 1 < count && compare(&words[child], &words[child + 1]) < 0)
            child++;
        if (compare(&words[parent], &words[child]) >= 0)
            return;
        struct word word = words[parent];
        words[parent] = words[child];
        words[child] = word;
        parent = child;
    }
}

static void sort(void) {
    for (u32 parent = word_count / 2; parent-- > 0;)
        sift(parent, word_count);
    for (u32 count = word_count; count-- > 1;) {
        struct word word = words[0];
        words[0] = words[count];
        words[count] = word;
        sift(0, count);
    }
}

// the digits of a number, at the end of ten places
static struct buffer decimal(u32 number, char *digits) {
    u32 at = 10;
    do {
        digits[--at] = '0' + number % 10;
        number /= 10;
    } while (number);
    return (struct buffer){digits + at, 10 - at};
}

static void print(const struct word *word) {
    char digits[10];
    struct buffer line[] = {decimal(word->times, digits), {" ", 1}, {word->letters, word->length}, {"\n", 1}};
    u32 written;
    u32 error = fd_write(OUTPUT, line, 4, &written);
    if (error)
        proc_exit(error);
}

void _start(void) {
    count_words();
    sort();
    for (u32 i = 0; i < word_count; i++)
        print(&words[i]);
    proc_exit(word_count);
}
