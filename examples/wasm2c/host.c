/* Two core modules that import from each other, compiled to C by wasm2c, and linked by witcall_call.h.
 *
 * A guest's code runs between wasm_rt_impl_try, which is setjmp, and wasm_rt_trap, which is longjmp. `has_run` is the
 * one place that catches a trap: so none leaves a function that the library calls. What trapped is not entered again.
 *
 * Memories are those of wasm2c without its signal handler: as they grow they move.
 */
#include "printer.h"
#include "wasm-rt-impl.h"
#include "witcall_call.h"
#include "writer.h"
#include <stdio.h>
#include <string.h>

/* A string constant as bytes and their number. */
#define BYTES(text) (const uint8_t *)(text), strlen(text)

/* As examples/run.sh links the modules. */
#define GREATEST_MEMORY 1048576

static witcall_package package = WITCALL_NONE;

/* ---- guests ---- */

/* Code of a guest, which takes core values, and returns one or 0. */
typedef uint32_t running(void *instance, const witcall_value *values);

/* An instance of a module, with its memory and its allocator. */
typedef struct {
    const char *name;
    void *instance;
    wasm_rt_memory_t *memory;
    running *allocator;
    bool has_trapped;
} guest;

/* Runs code of a guest, of which one may run within another. What it traps with is caught, and ends the guest. */
static bool has_run(guest *g, running *code, const witcall_value *values, uint32_t *answer) {
    jmp_buf outer;
    uint32_t depth = wasm_rt_call_stack_depth, saved = wasm_rt_saved_call_stack_depth;
    if (g->has_trapped)
        return false;
    memcpy(&outer, &wasm_rt_jmp_buf, sizeof outer);
    wasm_rt_trap_t trap = wasm_rt_impl_try();
    if (trap == WASM_RT_TRAP_NONE) {
        *answer = code(g->instance, values);
    } else {
        g->has_trapped = true;
        printf("%s: trapped: %s\n", g->name, wasm_rt_strerror(trap));
    }
    memcpy(&wasm_rt_jmp_buf, &outer, sizeof outer);
    wasm_rt_saved_call_stack_depth = saved;
    wasm_rt_call_stack_depth = depth;
    return !g->has_trapped;
}

static uint8_t *memory_of(void *context, size_t *len) {
    const guest *g = context;
    *len = g->memory->size;
    return g->memory->data;
}

static uint32_t realloc_of(void *context, uint32_t old, uint32_t old_size, uint32_t align, uint32_t size) {
    guest *g = context;
    const witcall_value values[] = {{0, old}, {0, old_size}, {0, align}, {0, size}};
    uint32_t at, pages = g->memory->pages;
    if (!has_run(g, g->allocator, values, &at))
        return WITCALL_STOPPED;
    printf("%s: a block of %u bytes\n", g->name, size);
    if (g->memory->pages > pages)
        printf("%s: its memory grew, %u -> %u pages\n", g->name, pages, g->memory->pages);
    return at;
}

static witcall_guest guest_of(guest *g) {
    return (witcall_guest){.context = g, .limit = GREATEST_MEMORY, .memory = memory_of, .realloc = realloc_of};
}

/* ---- links ---- */

/* A function that one guest imports and another one exports. */
typedef struct {
    guest *caller, *callee;
    const char *interface, *name;
    running *body, *post;
} linked;

static uint32_t run_body(void *context, const witcall_value *handed, uint32_t count, witcall_value *answer) {
    const linked *l = context;
    uint32_t at = 0;
    (void)count;
    if (!has_run(l->callee, l->body, handed, &at))
        return WITCALL_STOPPED;
    *answer = (witcall_value){.bits = at};
    return 1;
}

static uint32_t run_post(void *context, const witcall_value *answer, uint32_t count) {
    const linked *l = context;
    uint32_t nothing;
    (void)count;
    return !l->post || has_run(l->callee, l->post, answer, &nothing) ? 0 : WITCALL_STOPPED;
}

/* What is wrong ends the guest that called: its import has no value to go on with. */
static void call(const linked *l, const witcall_value *flats, size_t count) {
    char line[WITCALL_MAX_STATUS_LINE + 1];
    witcall_guest caller = guest_of(l->caller), callee = guest_of(l->callee);
    witcall_body body = {(void *)l, run_body, run_post};
    uint32_t func = witcall_find(&package, BYTES(l->interface), BYTES(l->name)).count;
    witcall_link link = {&package, func, &caller, &callee, &body};
    witcall_status status = witcall_link_call(&link, flats, count, NULL);
    if (status.code == WITCALL_DONE)
        return;
    printf("%s: %s\n", l->name, witcall_status_words(status, line));
    wasm_rt_trap(WASM_RT_TRAP_UNREACHABLE);
}

/* ---- what wasm2c declares: the imports, each with an instance of its own ---- */

struct Z_demoZ3AmillZ2Fpress_instance_t {
    linked print;
};

struct Z_demoZ3AmillZ2Fwords_instance_t {
    linked line;
};

struct Z_host_instance_t {
    guest *caller;
};

void Z_demoZ3AmillZ2FpressZ_print(
    struct Z_demoZ3AmillZ2Fpress_instance_t *press, u32 title, u32 title_len, u32 lines, u32 lines_len, u32 area) {
    const witcall_value flats[] = {{0, title}, {0, title_len}, {0, lines}, {0, lines_len}, {0, area}};
    call(&press->print, flats, 5);
}

void Z_demoZ3AmillZ2FwordsZ_line(struct Z_demoZ3AmillZ2Fwords_instance_t *words, u32 number, u32 area) {
    const witcall_value flats[] = {{0, number}, {0, area}};
    call(&words->line, flats, 2);
}

void Z_hostZ_say(struct Z_host_instance_t *host, u32 at, u32 len) {
    const wasm_rt_memory_t *memory = host->caller->memory;
    if (at > memory->size || len > memory->size - at)
        wasm_rt_trap(WASM_RT_TRAP_OOB);
    printf("%s: %.*s\n", host->caller->name, (int)len, (const char *)memory->data + at);
}

/* ---- the exports, each as one function of its values ---- */

static uint32_t writer_alloc(void *instance, const witcall_value *of) {
    return Z_writerZ_cabi_realloc(instance, of[0].bits, of[1].bits, of[2].bits, of[3].bits);
}

static uint32_t printer_alloc(void *instance, const witcall_value *of) {
    return Z_printerZ_cabi_realloc(instance, of[0].bits, of[1].bits, of[2].bits, of[3].bits);
}

static uint32_t print_body(void *instance, const witcall_value *of) {
    return Z_printerZ_demoZ3AmillZ2FpressZ23print(instance, of[0].bits, of[1].bits, of[2].bits, of[3].bits);
}

static uint32_t print_post(void *instance, const witcall_value *of) {
    Z_printerZ_cabi_post_demoZ3AmillZ2FpressZ23print(instance, of[0].bits);
    return 0;
}

static uint32_t line_body(void *instance, const witcall_value *of) {
    return Z_writerZ_demoZ3AmillZ2FwordsZ23line(instance, of[0].bits);
}

static uint32_t write_body(void *instance, const witcall_value *of) {
    Z_writerZ_write(instance, of[0].bits);
    return 0;
}

static uint32_t proof_body(void *instance, const witcall_value *of) {
    (void)of;
    Z_printerZ_proof(instance);
    return 0;
}

/* ---- a pair of guests, and what is done with it ---- */

/* The two instances, and what each of them imports. */
typedef struct {
    Z_writer_instance_t writer_instance;
    Z_printer_instance_t printer_instance;
    guest writer, printer;
    struct Z_demoZ3AmillZ2Fpress_instance_t press;
    struct Z_demoZ3AmillZ2Fwords_instance_t words;
    struct Z_host_instance_t of_writer, of_printer;
} pair;

static void open_pair(pair *p) {
    Z_writer_instantiate(&p->writer_instance, &p->press, &p->of_writer);
    Z_printer_instantiate(&p->printer_instance, &p->words, &p->of_printer);
    p->writer = (guest){"writer", &p->writer_instance, Z_writerZ_memory(&p->writer_instance), writer_alloc, false};
    p->printer = (guest){"printer", &p->printer_instance, Z_printerZ_memory(&p->printer_instance), printer_alloc,
        false};
    p->press.print = (linked){&p->writer, &p->printer, "demo:mill/press", "print", print_body, print_post};
    p->words.line = (linked){&p->printer, &p->writer, "demo:mill/words", "line", line_body, NULL};
    p->of_writer.caller = &p->writer;
    p->of_printer.caller = &p->printer;
}

static void close_pair(pair *p) {
    Z_writer_free(&p->writer_instance);
    Z_printer_free(&p->printer_instance);
}

/* Lets the writer have so many lines printed. */
static void write_lines(pair *p, uint32_t count) {
    const witcall_value lines = {.bits = count};
    uint32_t nothing;
    printf("-- %u lines\n", count);
    if (!has_run(&p->writer, write_body, &lines, &nothing))
        printf("writer: its call is not done\n");
}

static void proof(pair *p) {
    uint32_t nothing;
    printf("-- proof\n");
    if (!has_run(&p->printer, proof_body, NULL, &nothing))
        printf("printer: its call is not done\n");
}

/* A call that is not done, and then one more of each guest. */
static void go_wrong(uint32_t lines) {
    pair p;
    open_pair(&p);
    write_lines(&p, lines);
    write_lines(&p, 1);
    proof(&p);
    close_pair(&p);
}

int main(int words, char **word) {
    static uint8_t text[4096];
    pair p;
    FILE *file = words > 1 ? fopen(word[1], "rb") : NULL;
    size_t len = file ? fread(text, 1, sizeof text, file) : 0;
    if (!file || fclose(file) != 0 || witcall_open(text, len, &package).code != WITCALL_DONE)
        return 1;
    wasm_rt_init();
    Z_writer_init_module();
    Z_printer_init_module();
    open_pair(&p);
    write_lines(&p, 2);
    proof(&p);
    close_pair(&p);
    go_wrong(0);
    go_wrong(17);
    go_wrong(18);
    wasm_rt_free();
    witcall_close(&package);
    return 0;
}
