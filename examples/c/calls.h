/* The lines that vectors.c and linked_vectors.c read and print: a call between two memories, one a line, and what it
 * did. Each of the two programs makes it in its own way. vectors.py writes the calls of crates/vectors, random_calls.py
 * writes random ones, and both compare.
 *
 * A call:      package interface function flats caller allocator callee allocator answer stop writes next flats answer
 * its answer:  outcome body-got post-got caller requests callee requests, and of another call outcome body-got post-got
 *
 * Words are those of words.h. An allocator is "top:16", above which it grants, "grows:16", whose memory grows if it has
 * no room, or "script:8,none", what it answers in turn; requests are "align:size:address". An outcome is "ok:" and core
 * values, "trap:K5:lift-args", or "refused:63". What a body writes is "address:bytes". A next function is called after
 * the first one, over the same memories.
 *
 * A program with a word makes the calls with values as JSON. With "export" the host makes the call, with the arguments
 * that the caller's memory has. With "import" the host is called, and answers the result that the callee's memory has.
 * Then an answer has the text of the result behind it, or that of the arguments, as bytes. */
#ifndef CALLS_H
#define CALLS_H

#include "words.h"

/* More than any call has. */
#define MOST_BLOCKS 8192
#define MOST_TEXT (1 << 20)
#define MOST_GROWN (1 << 20)

/* The steps of a call in which a component's own code stops. */
enum { BODY = 4, POST = 7 };

typedef struct {
    uint8_t *bytes;
    size_t len;
    bool scripted, grows;
    uint32_t top;     /* where no script is: the next block's place */
    char *script;     /* what is left of the answers */
    witcall_block blocks[MOST_BLOCKS];     /* that were asked for */
    bool refused[MOST_BLOCKS];
    size_t asked;     /* how many of them */
} memory;

/* A function that is called, and what its body does: it writes bytes, and answers or stops. */
typedef struct {
    const char *function, *stop;
    values flats, answer;
    uint32_t at;
    uint8_t *writes;
    size_t writes_len;
} called;

typedef struct {
    uint8_t *bytes;     /* of its package, which is open while calls are made */
    size_t bytes_len;
    witcall_package package;
    const char *interface;
    called first, next;
    memory caller, callee;
} call;

typedef struct {
    witcall_status status;
    values back, body_got, post_got;
    bool body_ran, post_ran;
    uint8_t *text;
    size_t text_len;
} answer;

/* Makes a call of a function by its number. */
typedef void making(call *c, uint32_t func, const called *f, answer *a);

static const char *const STEPS[] = {
    [WITCALL_PLACE] = "place",
    [WITCALL_LIFT_ARGS] = "lift-args",
    [WITCALL_LOWER_ARGS] = "lower-args",
    [BODY] = "body",
    [WITCALL_LIFT_RESULT] = "lift-result",
    [WITCALL_LOWER_RESULT] = "lower-result",
    [POST] = "post",
};

/* ---- reading ---- */

static memory memory_of(const char *bytes, char *allocator) {
    memory made = {.asked = 0};
    char *words = strchr(allocator, ':');
    if (!words)
        fail("no allocator");
    made.bytes = bytes_of(bytes, &made.len);
    made.scripted = allocator[0] == 's';
    made.grows = allocator[0] == 'g';
    if (made.scripted)
        made.script = is_none(words + 1) ? NULL : words + 1;
    else
        made.top = strtoul(words + 1, NULL, 10);
    return made;
}

/* What a body writes: an address and bytes, or "-". */
static void set_writes(called *f, char *word) {
    f->at = strtoul(word, NULL, 10);
    f->writes = bytes_of(is_none(word) ? word : strchr(word, ':') + 1, &f->writes_len);
}

static call call_of(char *line) {
    char *words[14], *rest = line;
    for (size_t i = 0; i < 14; i++)
        if (!(words[i] = strsep(&rest, " ")))
            fail("a call has fourteen words");
    call made = {.package = WITCALL_NONE, .interface = words[1]};
    made.bytes = bytes_of(words[0], &made.bytes_len);
    made.first = (called){.function = words[2], .flats = values_of(words[3]), .answer = values_of(words[8])};
    made.next = (called){.function = words[11], .flats = values_of(words[12]), .answer = values_of(words[13])};
    made.first.stop = words[9], made.next.stop = "no";
    set_writes(&made.first, words[10]);
    made.caller = memory_of(words[4], words[5]);
    made.callee = memory_of(words[6], words[7]);
    return made;
}

/* ---- what the components do ---- */

/* Makes a memory longer, in an array of just its length. */
static bool has_grown(memory *m, uint64_t len) {
    if (!m->grows || len > MOST_GROWN)
        return false;
    m->bytes = realloc(m->bytes, len);
    if (!m->bytes)
        fail("no memory");
    memset(m->bytes + m->len, 0, len - m->len);
    m->len = len;
    return true;
}

/* What a memory's allocator answers; false where it refuses. */
static bool is_granted(memory *m, uint32_t align, uint32_t size, uint32_t *at) {
    if (m->scripted) {
        char *part = strsep(&m->script, ",");
        if (!part || strcmp(part, "none") == 0)
            return false;
        *at = strtoul(part, NULL, 10);
        return true;
    }
    uint64_t start = ((uint64_t)m->top + align - 1) / align * align;
    if (start + size > m->len && !has_grown(m, start + size))
        return false;
    *at = start;
    m->top = start + size;
    return true;
}

/* Asks a memory's allocator for a block, and notes it; false where it refuses. */
static bool is_noted(memory *m, uint32_t align, uint32_t size) {
    if (m->asked == MOST_BLOCKS)
        fail("too many blocks");
    witcall_block *block = &m->blocks[m->asked];
    *block = (witcall_block){.align = align, .size = size};
    bool granted = is_granted(m, align, size, &block->at);
    m->refused[m->asked++] = !granted;
    return granted;
}

/* What a core function does; false where it stops. */
static bool has_run(const called *f, memory *callee, const witcall_value *handed, uint32_t count, answer *a) {
    if (a->body_ran)
        fail("a body runs twice");
    a->body_ran = true;
    a->body_got.len = count;
    if (count)
        memcpy(a->body_got.at, handed, count * sizeof *handed);
    if (f->at > callee->len || f->writes_len > callee->len - f->at)
        fail("a body writes outside its memory");
    if (f->writes_len)
        memcpy(callee->bytes + f->at, f->writes, f->writes_len);
    return strcmp(f->stop, "body") != 0;
}

/* What post-return does; false where it stops. */
static bool has_finished(const called *f, const witcall_value *given, uint32_t count, answer *a) {
    if (a->post_ran)
        fail("a post-return runs twice");
    a->post_ran = true;
    a->post_got.len = count;
    if (count)
        memcpy(a->post_got.at, given, count * sizeof *given);
    return strcmp(f->stop, "post") != 0;
}

/* ---- telling ---- */

static void tell_values(const values *all) {
    if (all->len == 0)
        printf("-");
    for (size_t i = 0; i < all->len; i++)
        printf("%s%s:%" PRIu64, i ? "," : "", all->at[i].kind ? "i64" : "i32", all->at[i].bits);
}

static void tell_outcome(const answer *a) {
    if (a->status.code == WITCALL_TRAP) {
        printf("trap:K%u:%s", a->status.number, STEPS[a->status.step]);
    } else if (a->status.code != WITCALL_DONE) {
        printf("refused:%u", a->status.number);
    } else {
        printf("ok:");
        tell_values(&a->back);
    }
}

static void tell_run(bool ran, const values *got) {
    printf(" ");
    if (ran)
        tell_values(got);
    else
        printf("none");
}

static void tell_bytes(const uint8_t *bytes, size_t len) {
    printf(len ? " " : " -");
    for (size_t i = 0; i < len; i++)
        printf("%02x", bytes[i]);
}

static void tell_memory(const memory *m) {
    tell_bytes(m->bytes, m->len);
    printf(m->asked ? " " : " -");
    for (size_t i = 0; i < m->asked; i++) {
        printf("%s%u:%u:", i ? "," : "", m->blocks[i].align, m->blocks[i].size);
        if (m->refused[i])
            printf("none");
        else
            printf("%u", m->blocks[i].at);
    }
}

/* How a call ended, and what the body and post-return got. */
static void tell_runs(const answer *a) {
    tell_outcome(a);
    tell_run(a->body_ran, &a->body_got);
    tell_run(a->post_ran, &a->post_got);
}

static bool failed(answer *a, witcall_status status) {
    a->status = status;
    return status.code != WITCALL_DONE;
}

static answer made(call *c, const called *f, making *make) {
    answer a = {.text = NULL};
    const uint8_t *interface = (const uint8_t *)c->interface, *function = (const uint8_t *)f->function;
    witcall_status found = witcall_find(&c->package, interface, strlen(c->interface), function, strlen(f->function));
    if (!failed(&a, found))
        make(c, found.count, f, &a);
    return a;
}

/* Makes a call and the next one, and tells both. */
static void tell_calls(call *c, making *make, bool has_texts) {
    answer first = {.text = NULL}, next = first;
    const bool has_next = !is_none(c->next.function);
    if (!failed(&first, witcall_open(c->bytes, c->bytes_len, &c->package))) {
        first = made(c, &c->first, make);
        if (has_next)
            next = made(c, &c->next, make);
    }
    witcall_close(&c->package);
    tell_runs(&first);
    tell_memory(&c->caller);
    tell_memory(&c->callee);
    if (has_texts)
        tell_bytes(first.text, first.text_len);
    if (has_next) {
        printf(" ");
        tell_runs(&next);
    }
    printf("\n");
    free(first.text), free(next.text);
}

/* Makes the calls of the lines: without a word as `link` does. */
static void make_all(int words, char **word, making *link, making *export, making *import) {
    const bool has_texts = words > 1;
    making *make = !has_texts ? link : strcmp(word[1], "export") == 0 ? export : import;
    char *line = NULL;
    size_t room = 0;
    for (ssize_t len; (len = getline(&line, &room, stdin)) > 0;) {
        line[len - 1] = '\0';
        call c = call_of(line);
        tell_calls(&c, make, has_texts);
        free(c.bytes), free(c.caller.bytes), free(c.callee.bytes), free(c.first.writes);
    }
    free(line);
}

#endif
