/* Takes steps over a memory that a host keeps, which are said on standard input, one a line: it puts arguments that are
 * texts of JSON there, and reads results as JSON. It tells what each step did, one a line. examples/c/json_vectors.py
 * writes the steps from the rows of crates/vectors, and compares.
 *
 * A step:      package interface function memory length, and then one of these
 *              asks json
 *              answer-asks json
 *              fills json blocks room
 *              reads values limit
 *              receives values
 *              answers values json blocks
 * its answer:  JSON, as docs/FORMATS.md has it ("Rows of a host's memory"); of the last two as import_vectors.py has it
 *
 * Words are those of words.h. A text of JSON is bytes, and blocks are "align:size:address,..". The memory has zeros up
 * to its length. A limit "-" is none.
 */
#include "words.h"

/* A word of bytes. */
typedef struct {
    uint8_t *at;
    size_t len;
} bytes;

/* The function of a step, and the memory that it begins with. */
typedef struct {
    witcall_package package;
    uint32_t func;
    bytes memory;
} host;

/* ---- reading ---- */

static char *word_of(char **rest) {
    char *word = strsep(rest, " ");
    if (!word)
        fail("a word is missing");
    return word;
}

static bytes text_of(char **rest) {
    bytes text;
    text.at = bytes_of(word_of(rest), &text.len);
    return text;
}

static bytes memory_of(char **rest) {
    const char *front = word_of(rest);
    size_t len = strtoul(word_of(rest), NULL, 10), given;
    bytes memory = {bytes_within(front, len, &given), len};
    if (given > len)
        fail("a memory is longer than its length");
    return memory;
}

/* The blocks of a word, in an array of just so many. */
static witcall_block *blocks_of(char *word, size_t *count) {
    *count = !is_none(word);
    for (const char *at = word; (at = strchr(at, ',')); at++)
        ++*count;
    witcall_block *blocks = room_for(*count, sizeof *blocks);
    for (size_t i = 0; i < *count; i++) {
        const char *part = strsep(&word, ",");
        witcall_block *b = &blocks[i];
        if (sscanf(part, "%" SCNu32 ":%" SCNu32 ":%" SCNu32, &b->align, &b->size, &b->at) != 3)
            fail("bad blocks");
    }
    return blocks;
}

static uint32_t done(witcall_status status) {
    if (status.code != WITCALL_DONE)
        fail("a package or a function is refused");
    return status.count;
}

/* Opens the package of a line, and finds its function there. */
static host host_of(char **rest) {
    host h = {.package = WITCALL_NONE};
    bytes package = text_of(rest);
    done(witcall_open(package.at, package.len, &h.package));
    free(package.at);
    const char *interface = word_of(rest), *function = word_of(rest);
    h.func = done(witcall_find(&h.package, (const uint8_t *)interface, strlen(interface), (const uint8_t *)function,
                               strlen(function)));
    h.memory = memory_of(rest);
    return h;
}

/* ---- telling ---- */

/* Why nothing was done, as a member. */
static void tell_error(witcall_status status) {
    uint8_t line[WITCALL_MAX_STATUS_LINE];
    const char *kind = status.code == WITCALL_TRAP ? "trap" : "refused";
    witcall_status told = witcall_status_line(status, line, sizeof line);
    printf("\"%s\":\"%.*s\"", kind, (int)told.count, line);
}

/* The values up to the last that was put. */
static void tell_values(const char *name, const witcall_value *handed, size_t room) {
    while (room > 0 && handed[room - 1].kind == 1 && handed[room - 1].bits == UINT64_MAX)
        room--;
    printf(",\"%s\":[", name);
    for (size_t i = 0; i < room; i++)
        printf("%s[\"%s\",%" PRIu64 "]", i ? "," : "", handed[i].kind ? "i64" : "i32", handed[i].bits);
    printf("]");
}

/* The bytes up to the last that is not 0. */
static void tell_memory(bytes memory) {
    while (memory.len > 0 && memory.at[memory.len - 1] == 0)
        memory.len--;
    printf(",\"memory\":\"");
    for (size_t i = 0; i < memory.len; i++)
        printf("%02x", memory.at[i]);
    printf("\"");
}

/* ---- the steps ---- */

/* What tells the blocks of arguments, or those of a result. */
typedef witcall_status asking(witcall_package *package, uint32_t func, const uint8_t *json, size_t json_len,
                              witcall_request *requests, size_t requests_len, uint64_t limit);

static void asks(host *h, char **rest, asking *ask) {
    bytes json = text_of(rest);
    witcall_status counted = ask(&h->package, h->func, json.at, json.len, NULL, 0, NO_LIMIT);
    if (counted.code != WITCALL_DONE) {
        printf("{");
        tell_error(counted);
    } else {
        witcall_request *asked = room_for(counted.count, sizeof *asked);
        witcall_status told = ask(&h->package, h->func, json.at, json.len, asked, counted.count, NO_LIMIT);
        if (done(told) != counted.count)
            fail("requests are counted in two ways");
        printf("{\"asks\":[");
        for (size_t i = 0; i < counted.count; i++)
            printf("%s[%" PRIu32 ",%" PRIu32 "]", i ? "," : "", asked[i].align, asked[i].size);
        printf("]");
        free(asked);
    }
    printf("}\n");
    free(json.at);
}

/* Places for core values, none of which was put. */
static witcall_value *places_of(size_t room) {
    witcall_value *places = room_for(room, sizeof *places);
    for (size_t i = 0; i < room; i++)
        places[i] = (witcall_value){.kind = 1, .bits = UINT64_MAX};
    return places;
}

static void fills(host *h, char **rest) {
    size_t count;
    bytes json = text_of(rest);
    witcall_block *blocks = blocks_of(word_of(rest), &count);
    size_t room = strtoul(word_of(rest), NULL, 10);
    witcall_value *handed = places_of(room);
    witcall_status filled = witcall_fill_json(
        &h->package, h->func, json.at, json.len, h->memory.at, h->memory.len, blocks, count, handed, room);
    printf("{");
    if (filled.code == WITCALL_DONE)
        printf("\"filled\":%" PRIu32, filled.count);
    else
        tell_error(filled);
    tell_values("handed", handed, room);
    tell_memory(h->memory);
    printf("}\n");
    free(handed), free(blocks), free(json.at);
}

static witcall_status read_into(host *h, const values *answer, bytes text, uint64_t limit) {
    return witcall_read_json(
        &h->package, h->func, answer->at, answer->len, h->memory.at, h->memory.len, text.at, text.len, limit);
}

static void tell_read(host *h, const values *answer, uint64_t limit) {
    witcall_status counted = read_into(h, answer, (bytes){NULL, 0}, limit);
    if (counted.code == WITCALL_DONE) {
        printf("\"nothing\"\n");
    } else if (counted.code == WITCALL_REFUSED && counted.number == WITCALL_NO_ROOM) {
        bytes text = {room_for(counted.count, 1), counted.count};
        if (done(read_into(h, answer, text, limit)) != text.len)
            fail("a text has two lengths");
        printf("{\"read\":%.*s}\n", (int)text.len, text.at);
        free(text.at);
    } else {
        printf("{");
        tell_error(counted);
        printf("}\n");
    }
}

static void reads(host *h, char **rest) {
    values answer = values_of(word_of(rest));
    const char *limit = word_of(rest);
    uint8_t *before = room_for(h->memory.len, 1);
    if (h->memory.len)
        memcpy(before, h->memory.at, h->memory.len);
    tell_read(h, &answer, is_none(limit) ? NO_LIMIT : strtoull(limit, NULL, 10));
    if (h->memory.len && memcmp(before, h->memory.at, h->memory.len) != 0)
        fail("the memory was written to");
    free(before);
}

static witcall_status receive_into(host *h, const values *flats, bytes text) {
    return witcall_read_arguments_json(
        &h->package, h->func, flats->at, flats->len, h->memory.at, h->memory.len, text.at, text.len, NO_LIMIT);
}

/* The arguments of a guest's call; a text of them has two bytes at least. */
static void receives(host *h, char **rest) {
    values flats = values_of(word_of(rest));
    witcall_status counted = receive_into(h, &flats, (bytes){NULL, 0});
    printf("{");
    if (counted.code == WITCALL_REFUSED && counted.number == WITCALL_NO_ROOM) {
        bytes text = {room_for(counted.count, 1), counted.count};
        if (done(receive_into(h, &flats, text)) != text.len)
            fail("a text has two lengths");
        printf("\"received\":%.*s", (int)text.len, text.at);
        free(text.at);
    } else {
        tell_error(counted);
    }
    printf("}\n");
}

/* The result of a guest's call. */
static void answers(host *h, char **rest) {
    size_t count;
    values flats = values_of(word_of(rest));
    bytes json = text_of(rest);
    witcall_block *blocks = blocks_of(word_of(rest), &count);
    witcall_value *back = places_of(WITCALL_MAX_VALUES);
    witcall_status filled = witcall_fill_result_json(
        &h->package, h->func, flats.at, flats.len, json.at, json.len, h->memory.at, h->memory.len, blocks, count, back,
        WITCALL_MAX_VALUES);
    printf("{");
    if (filled.code == WITCALL_DONE)
        printf("\"answered\":%" PRIu32, filled.count);
    else
        tell_error(filled);
    tell_values("back", back, WITCALL_MAX_VALUES);
    tell_memory(h->memory);
    printf("}\n");
    free(back), free(blocks), free(json.at);
}

static void take(char *line) {
    host h = host_of(&line);
    const char *step = word_of(&line);
    if (strcmp(step, "asks") == 0)
        asks(&h, &line, witcall_json_requests);
    else if (strcmp(step, "answer-asks") == 0)
        asks(&h, &line, witcall_result_json_requests);
    else if (strcmp(step, "fills") == 0)
        fills(&h, &line);
    else if (strcmp(step, "reads") == 0)
        reads(&h, &line);
    else if (strcmp(step, "receives") == 0)
        receives(&h, &line);
    else if (strcmp(step, "answers") == 0)
        answers(&h, &line);
    else
        fail("no step");
    witcall_close(&h.package);
    free(h.memory.at);
}

int main(void) {
    char *line = NULL;
    size_t room = 0;
    for (ssize_t len; (len = getline(&line, &room, stdin)) > 0;) {
        line[len - 1] = '\0';
        take(line);
    }
    free(line);
    return 0;
}
