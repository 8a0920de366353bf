/* Reads the lines of a script. A reader takes its words off the rest of the line, and returns whether they have its form. */
#include "language.h"

#include <string.h>

enum { GREATEST_NAME = 32, GREATEST_NUMBER_DIGITS = 20, GREATEST_INDEX_DIGITS = 10 };

static const int64_t greatest_index = INT32_MAX;
static const int64_t lowest_index = INT32_MIN;

bool text_is(text self, const char *name) {
    return self.length == strlen(name) && memcmp(self.at, name, self.length) == 0;
}

/* Takes this many bytes off the beginning. */
static text take(text *rest, size_t length) {
    const text taken = {rest->at, length};
    rest->at += length;
    rest->length -= length;
    return taken;
}

/* Takes what is before the byte, or everything if the byte isn't there. */
static text take_before(text *rest, char byte) {
    const char *found = rest->length == 0 ? NULL : memchr(rest->at, byte, rest->length);
    return take(rest, found == NULL ? rest->length : (size_t)(found - rest->at));
}

bool next_line(text *script, text *line) {
    if (script->length == 0) {
        return false;
    }
    *line = take_before(script, '\n');
    take(script, script->length == 0 ? 0 : 1);
    return true;
}

/* Takes the next word, which is empty if there is none. */
static text next_word(text *rest) {
    while (rest->length > 0 && rest->at[0] == ' ') {
        take(rest, 1);
    }
    return take_before(rest, ' ');
}

static bool has_words(text rest) {
    return next_word(&rest).length > 0;
}

static bool is_digit(char byte) {
    return byte >= '0' && byte <= '9';
}

static bool is_letter(char byte) {
    return (byte >= 'a' && byte <= 'z') || (byte >= 'A' && byte <= 'Z');
}

/* Appends a digit to the number, if 64 bits hold the result. */
static bool add_digit(uint64_t *number, char byte) {
    const uint64_t digit = (uint64_t)(byte - '0');
    if (!is_digit(byte) || *number > (UINT64_MAX - digit) / 10) {
        return false;
    }
    *number = *number * 10 + digit;
    return true;
}

static bool number_of(text word, size_t most_digits, uint64_t *number) {
    bool is_number = word.length >= 1 && word.length <= most_digits;
    *number = 0;
    for (size_t i = 0; is_number && i < word.length; i++) {
        is_number = add_digit(number, word.at[i]);
    }
    return is_number;
}

static bool is_name(text word) {
    bool is_fine = word.length >= 1 && word.length <= GREATEST_NAME && is_letter(word.at[0]);
    for (size_t i = 1; is_fine && i < word.length; i++) {
        is_fine = is_letter(word.at[i]) || is_digit(word.at[i]) || word.at[i] == '_';
    }
    return is_fine;
}

static bool read_number(text *rest, uint64_t *number) {
    return number_of(next_word(rest), GREATEST_NUMBER_DIGITS, number);
}

/* Reads what is between the parentheses of an index. */
static bool index_of(text word, int64_t *index) {
    const bool is_negative = word.length > 0 && word.at[0] == '-';
    uint64_t size = 0;
    take(&word, is_negative ? 1 : 0);
    if (!number_of(word, GREATEST_INDEX_DIGITS, &size)) {
        return false;
    }
    *index = is_negative ? -(int64_t)size : (int64_t)size;
    return *index >= lowest_index && *index <= greatest_index;
}

/* Reads what follows the name of an entry: nothing, or an index in parentheses. */
static bool read_index(text behind, command *says) {
    if (behind.length == 0) {
        return true;
    }
    if (behind.length < 2 || behind.at[behind.length - 1] != ')') {
        return false;
    }
    says->has_index = true;
    return index_of((text){behind.at + 1, behind.length - 2}, &says->index);
}

static bool read_entry(text *rest, command *says) {
    text word = next_word(rest);
    says->name = take_before(&word, '(');
    return is_name(says->name) && read_index(word, says);
}

static bool read_call(text *rest, command *says) {
    return read_entry(rest, says) && read_number(rest, &says->number);
}

static bool read_cond(text *rest, command *says) {
    says->is_timed = true;
    return read_call(rest, says);
}

static bool read_timed(text *rest, command *says) {
    says->is_timed = true;
    return read_number(rest, &says->time) && read_call(rest, says);
}

static bool read_operation(text *rest, command *says) {
    says->name = next_word(rest);
    return is_name(says->name) && read_number(rest, &says->number);
}

static bool read_argument(text *rest, command *says) {
    return read_number(rest, &says->number);
}

static bool read_nothing(text *rest, command *says) {
    (void)rest;
    (void)says;
    return true;
}

static bool read_kind(text *rest, command *says) {
    const text word = next_word(rest);
    for (size_t i = 0; i < UNIT_KINDS; i++) {
        if (text_is(word, unit_kinds[i].name)) {
            says->kind = &unit_kinds[i];
        }
    }
    return says->kind != NULL;
}

static bool read_size(text *rest, command *says) {
    if (!says->kind->has_size) {
        return true;
    }
    return read_number(rest, &says->size) && says->size >= 1 && says->size <= UNIT_GREATEST_SIZE;
}

/* Takes a service order. A word that names none is left. */
static void read_order(text *rest, command *says) {
    static const char *const names[] = {[TEXTUAL] = "textual", [OLDEST] = "oldest", [ROTATING] = "rotating"};
    text behind = *rest;
    const text word = next_word(&behind);
    for (service_order order = TEXTUAL; order <= ROTATING; order++) {
        if (text_is(word, names[order])) {
            says->order = order;
            *rest = behind;
        }
    }
}

static bool read_longest(text *rest, command *says) {
    if (!has_words(*rest)) {
        return true;
    }
    says->has_longest = true;
    return text_is(next_word(rest), "max") && read_number(rest, &says->longest);
}

static bool read_unit(text *rest, command *says) {
    if (!read_kind(rest, says) || !read_size(rest, says)) {
        return false;
    }
    read_order(rest, says);
    return read_longest(rest, says);
}

/* The first word of a line, the command it begins, and the reader of what follows. */
typedef struct {
    const char *word;
    verb verb;
    bool (*read)(text *rest, command *says);
} beginning;

static const beginning beginnings[] = {
    {"unit", SAYS_UNIT, read_unit},
    {"call", SAYS_CALL, read_call},
    {"cond", SAYS_CALL, read_cond},
    {"timed", SAYS_CALL, read_timed},
    {"proc", SAYS_PROC, read_operation},
    {"func", SAYS_FUNC, read_operation},
    {"cancel", SAYS_CANCEL, read_argument},
    {"tick", SAYS_TICK, read_argument},
    {"final", SAYS_FINAL, read_nothing},
    {"show", SAYS_SHOW, read_nothing}};

static const beginning *beginning_of(text word) {
    for (size_t i = 0; i < sizeof beginnings / sizeof beginnings[0]; i++) {
        if (text_is(word, beginnings[i].word)) {
            return &beginnings[i];
        }
    }
    return NULL;
}

/* Reads the command that begins with this word. The first command begins a unit, and no other does. */
static bool read_command(text word, text rest, bool is_begun, command *says) {
    const beginning *found = beginning_of(word);
    if (found == NULL || (found->verb == SAYS_UNIT) == is_begun) {
        return false;
    }
    says->verb = found->verb;
    return found->read(&rest, says) && !has_words(rest);
}

bool read_line(text line, bool is_begun, command *says) {
    *says = (command){.verb = SAYS_NOTHING};
    if (line.length > GREATEST_LINE) {
        return false;
    }
    const text word = next_word(&line);
    return word.length == 0 || word.at[0] == '#' || read_command(word, line, is_begun, says);
}
