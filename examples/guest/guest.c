/* A guest of the world club of guest.wit, over its header club.h. It needs no C library. */
#define WIT_IMPLEMENTATION
#define WIT_SHORT_NAMES
#include "club.h"

static uint32_t entries;

static void note(journal_entry entry) {
    wit_result_u32_string written = journal_write(entry);
    if (written.tag == WIT_OK)
        entries = written.as.ok;
}

/* "today: N regulars", where today is what the host says. */
static wit_string summary(uint32_t count) {
    static const char words[] = ": 0 regulars";
    wit_string today = club_today(), text = wit_string_new(today.length + sizeof words - 1);
    char *bytes = wit_string_bytes(text);
    for (uint32_t place = 0; place < today.length; place++)
        bytes[place] = wit_string_bytes(today)[place];
    for (uint32_t place = 0; place < sizeof words - 1; place++)
        bytes[today.length + place] = words[place];
    bytes[today.length + 2] += (char)(count % 10);
    return text;
}

wit_list_string exports_roster_regulars(wit_list_roster_member members, uint32_t visits) {
    const roster_member *given = wit_list_roster_member_elements(members);
    wit_list_string names = wit_list_string_new(members.length);
    uint32_t count = 0;
    note((journal_entry){.tag = JOURNAL_ENTRY_OPENED});
    note((journal_entry){.tag = JOURNAL_ENTRY_COUNTED, .as.counted = members.length});
    for (uint32_t place = 0; place < members.length; place++)
        if (given[place].visits >= visits)
            wit_list_string_elements(names)[count++] = given[place].name;
    note((journal_entry){.tag = JOURNAL_ENTRY_SAID, .as.said = summary(count)});
    if (count == 0)
        note((journal_entry){.tag = JOURNAL_ENTRY_SAID, .as.said = WIT_STRING("nobody")});
    names.length = count;
    return names;
}

uint32_t exports_club_entries(void) {
    return entries;
}
