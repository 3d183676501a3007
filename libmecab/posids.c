/* Part-of-speech ids by the rules of a pos-id.def. */
#include "layer.h"
#include <errno.h>
#include <stdlib.h>
#include <string.h>

enum { FIELD_MAX = 512, NO_ID = 65535 };

/* The fields of a rule, each of which must match the field of a feature, and the rule's id. The
   first `shared` fields are equal to those of the rule before. `other` is the number of the next
   rule with another first field. */
typedef struct rule {
    char *text;
    const char **fields;
    size_t field_count;
    size_t shared;
    size_t other;
    uint16_t id;
} rule;

/* All rules. The longest one has `longest` fields. */
struct posids {
    rule *rules;
    size_t count;
    size_t room;
    size_t longest;
};

static bool add_fields_of(rule *to, fault *error) {
    const char *fields[FIELD_MAX];
    to->field_count = split_fields(to->text, fields, FIELD_MAX);
    to->fields = malloc((to->field_count + 1) * sizeof *to->fields);
    if (!to->fields) return fail_memory(error);
    memcpy(to->fields, fields, to->field_count * sizeof *fields);
    return true;
}

static size_t shared_of(const rule *one, const rule *other) {
    size_t shared = 0,
           most = one->field_count < other->field_count ? one->field_count : other->field_count;
    while (shared < most && strcmp(one->fields[shared], other->fields[shared]) == 0) shared++;
    return shared;
}

static bool add_rule(posids *to, const char *pattern, size_t length, unsigned long id,
                     fault *error) {
    if (to->count == to->room) {
        rule *rules = realloc(to->rules, (2 * to->room + 64) * sizeof *rules);
        if (!rules) return fail_memory(error);
        to->rules = rules;
        to->room = 2 * to->room + 64;
    }
    rule *new = &to->rules[to->count];
    *new = (rule){.text = strndup(pattern, length), .id = (uint16_t)id};
    if (!new->text) return fail_memory(error);
    to->count++;
    if (!add_fields_of(new, error)) return false;
    if (new->field_count > to->longest) to->longest = new->field_count;
    if (to->count > 1) new->shared = shared_of(new - 1, new);
    return true;
}

/* Reads a rule: a pattern and a number, with blanks between them. (MeCab) */
static bool read_rule(posids *to, const char *line, fault *error) {
    const char *pattern = line + strspn(line, " \t");
    size_t length = strcspn(pattern, " \t");
    const char *number = pattern + length + strspn(pattern + length, " \t");
    char *end = NULL;
    if (length == 0 || *number < '0' || *number > '9')
        return fail(error, "expected a pattern and a number");
    unsigned long id = strtoul(number, &end, 10);
    if ((*end && *end != ' ' && *end != '\t') || id > UINT16_MAX)
        return fail(error, "not a number up to %d: %.100s", UINT16_MAX, number);
    return add_rule(to, pattern, length, id, error);
}

/* A file of rules, and the checksum of the image beside it. */
typedef struct source {
    FILE *file;
    const char *path;
    const unsigned char *checksum;
} source;

/* A first line with the checksum of the image is no rule. If it has another checksum, sets
 *is_other and reads no rules. */
static bool read_lines(posids *to, const source *from, bool *is_other, fault *error) {
    char *line = NULL;
    size_t room = 0, number = 0;
    ssize_t length = 0;
    bool is_read = true;
    while (is_read && !*is_other && (length = getline(&line, &room, from->file)) >= 0) {
        fault wrong;
        if (length > 0 && line[length - 1] == '\n') line[length - 1] = '\0';
        stamp found = number++ == 0 ? stamp_in(line, from->checksum) : NO_STAMP;
        *is_other = found == OTHER_STAMP;
        if (found == NO_STAMP && !read_rule(to, line, &wrong)) {
            is_read = fail(error, "%s: line %zu: %.200s", from->path, number, wrong.text);
        }
    }
    if (is_read && !*is_other && !feof(from->file)) {
        is_read = fail(error, "%s: line %zu: %s", from->path, number + 1, strerror(errno));
    }
    free(line);
    return is_read;
}

/* Without a file MeCab's compiler has one rule for all features, and so this does. Rules for
   another image count as missing. */
static bool read_rules(posids *to, const source *from, fault *error) {
    bool is_missing = from->file == NULL;
    if (!is_missing && !read_lines(to, from, &is_missing, error)) return false;
    return !is_missing || add_rule(to, "*", 1, 1, error);
}

static void link_others(posids *of) {
    size_t other = of->count;
    for (size_t i = of->count; i > 0; i--) {
        of->rules[i - 1].other = other;
        if (of->rules[i - 1].shared == 0) other = i - 1;
    }
}

posids *read_posids(FILE *file, const char *path, const unsigned char *checksum, fault *error) {
    source from = {file, path, checksum};
    posids *made = calloc(1, sizeof *made);
    if (!made) {
        fail_memory(error);
        return NULL;
    }
    if (read_rules(made, &from, error)) {
        link_others(made);
        return made;
    }
    free_posids(made);
    return NULL;
}

static bool is_one_of(const char *list, size_t length, const char *field) {
    size_t wanted = strlen(field);
    for (const char *end = list + length; list < end;) {
        const char *bar = memchr(list, '|', (size_t)(end - list));
        size_t one = bar ? (size_t)(bar - list) : (size_t)(end - list);
        if (one == wanted && memcmp(list, field, one) == 0) return true;
        list += one + 1;
    }
    return false;
}

static bool are_equal(const char *one, const char *other) {
    return *one == *other && strcmp(one, other) == 0;
}

/* Returns whether a pattern matches a field. One that starts with `*` matches every field, and one
   in parentheses each of its texts between bars. (MeCab) */
static bool matches(const char *pattern, const char *field) {
    if (*pattern == '*' || are_equal(pattern, field)) return true;
    if (*pattern != '(') return false;
    size_t length = strlen(pattern);
    return length >= 3 && pattern[length - 1] == ')' && is_one_of(pattern + 1, length - 2, field);
}

/* Returns how many fields of a rule match before the first one that doesn't. The first `matched`
   ones are known to match. */
static size_t matching(const rule *of, size_t matched, const char *const *fields, size_t count) {
    while (matched < of->field_count && matched < count &&
           matches(of->fields[matched], fields[matched]))
        matched++;
    return matched;
}

/* Returns the id of the first rule that matches. A rule fails at the same field as the rule before
   it, if it shares that field. */
static uint16_t id_by_fields(const posids *of, const char *const *fields, size_t count) {
    size_t matched = 0;
    for (size_t i = 0; i < of->count; i = matched != 0 ? i + 1 : of->rules[i].other) {
        const rule *one = &of->rules[i];
        if (matched < one->shared) continue;
        matched = matching(one, one->shared, fields, count);
        if (matched == one->field_count) return one->id;
    }
    return NO_ID;
}

/* Splits the feature into one field more than the longest rule has. The last one is the remainder,
   which no rule needs. */
uint16_t posid_of(const posids *of, char *feature) {
    const char *fields[FIELD_MAX];
    size_t most = of->longest < FIELD_MAX ? of->longest + 1 : FIELD_MAX;
    return id_by_fields(of, fields, split_fields(feature, fields, most));
}

void free_posids(posids *of) {
    if (!of) return;
    for (size_t i = 0; i < of->count; i++) {
        free(of->rules[i].text);
        free(of->rules[i].fields);
    }
    free(of->rules);
    free(of);
}
