/* Texts and binaries of a stranger: each is opened or refused. What is opened is written, and opens again as the same
 * package. With less memory an input is out of memory, or is what it was. */
#include "opened.h"

/* ---- an allocation that is refused: which one from now on, or 0 for none ---- */

static uint32_t refused = 0;

void *__real_malloc(size_t size);
void *__real_realloc(void *old, size_t size);
void *__wrap_malloc(size_t size);
void *__wrap_realloc(void *old, size_t size);

static bool is_granted(void) {
    return refused == 0 || --refused > 0;
}

void *__wrap_malloc(size_t size) {
    return is_granted() ? __real_malloc(size) : NULL;
}

void *__wrap_realloc(void *old, size_t size) {
    return is_granted() ? __real_realloc(old, size) : NULL;
}

/* Opens the input again, while an allocation is refused which its bytes choose. */
static void check_refused(const uint8_t *bytes, size_t len, witcall_status before) {
    witcall_package package = WITCALL_NONE;
    refused = 1 + hash(bytes, len) % 128;
    witcall_status status = witcall_open(bytes, len, &package);
    const bool was_refused = refused == 0;
    refused = 0;
    check_status(status);
    HOLDS(is_same(status, before) || (was_refused && status.code == WITCALL_NO_MEMORY));
    mark(3, status.code == WITCALL_NO_MEMORY ? status.number : 0);
    witcall_close(&package);
}

/* The input, and what it came to: its text, or its line. */
static void put_case(const uint8_t *data, size_t len, witcall_package *package, witcall_status status) {
    uint8_t line[4096];
    size_t told = 0;
    if (!cases())
        return;
    put_words("{\"of\":\"open\",\"input\":"), put_hex(data, len);
    put_words(",\"status\":"), put_status(status);
    if (is_done(status)) {
        uint8_t *text = written(package, witcall_to_text, 36, &told);
        put_words(",\"text\":"), put_hex(text, text ? told : 0);
        free(text);
    } else {
        told = witcall_line(package, line, sizeof line).count;
        put_words(",\"line\":"), put_hex(line, told < sizeof line ? told : 0);
    }
    put_words("}\n");
}

/* What is wrong with a text: nothing if it was opened, and otherwise the error that it was refused with. */
static void check_explained(const uint8_t *bytes, size_t len, witcall_status status) {
    static const uint8_t MAGIC[] = {0, 'a', 's', 'm'};
    uint8_t json[8192], error[32];
    if (len >= sizeof MAGIC && memcmp(bytes, MAGIC, sizeof MAGIC) == 0)
        return;
    witcall_status told = witcall_explain(bytes, len, &len, 1, json, sizeof json);
    check_status(told);
    if (is_refused(told, WITCALL_NO_ROOM))
        return;
    HOLDS(is_done(told) && told.count < sizeof json);
    json[told.count] = 0;
    HOLDS(is_done(status) == (strcmp((const char *)json, "[]\n") == 0));
    snprintf((char *)error, sizeof error, "\"error\":%u,", status.number);
    HOLDS(is_done(status) || strstr((const char *)json, (const char *)error));
}

int LLVMFuzzerTestOneInput(const uint8_t *data, size_t len) {
    if (len > FENCED)
        return -1;
    uint8_t *bytes = fenced(0, len, true);
    if (len)
        memcpy(bytes, data, len);
    witcall_package package = WITCALL_NONE;
    witcall_status status = witcall_open(bytes, len, &package);
    check_opened(&package, status, NULL, NULL, 0);
    check_explained(bytes, len, status);
    put_case(data, len, &package, status);
    witcall_close(&package);
    HOLDS(!package.at && !package.is_open);
    check_refused(bytes, len, status);
    return 0;
}
