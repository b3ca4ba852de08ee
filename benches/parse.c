/* A parser by hand for the language of the files that benches/parse makes, to compare the parser with: it reads
 * standard input, parses it as often as its first word says, and prints its number of items, or what it can't read and
 * where that stands.
 *
 * One pass over the bytes, by recursive descent. It reads assignments, aliases, settings, recipes with attributes,
 * parameters, dependencies and bodies, comments, blank lines, and all expressions but format strings. It refuses
 * `import`, `mod`, `unexport`, functions that a file defines, strings behind `x` or `f`, and strings of three quotes.
 *
 * It keeps what our tree keeps: the place of each name, string, command and operator, the text that each string stands
 * for, attributes in their order, numbers, and the options of parameters; and it checks what our parser checks. But the
 * path and the source are kept once, and not with each place, and attributes are ordered by their arguments as they are
 * written, and not as they would be printed. Each node, text and list has memory of its own by malloc, a list as much
 * as its items take, and the tree is freed behind each parse, piece by piece. */
#include <stdint.h>
#include <stdio.h>
#include <stdlib.h>
#include <string.h>

typedef const unsigned char *Bytes;

enum { LEVELS = 256, PRIMARY = 0, WHOLE = 6 };

/* Bytes and lines from 0. */
struct place {
    size_t offset, length, line, column;
};

struct text {
    char *bytes;
    size_t length;
};

enum expression_kind {
    BINARY, CALL, COMMAND, CONDITIONAL, GROUP, LIST, PREFIX, STRING, TEXT, VARIABLE
};

enum operator {
    NONE, OR, AND, EQUALITY, INEQUALITY, MATCH, MISMATCH, LIST_CONCATENATION, CONCATENATION, JOIN, NOT
};

/* An expression, or as TEXT a part of a body's line between expressions. The place is that of the name, the string, the
 * command, the operator, the opening bracket or the text; a group and a conditional have none. */
struct expression {
    unsigned char kind, operator;
    struct place place;
    union {
        struct text text;
        struct {
            struct expression *left, *right;
        } sides;
        struct {
            struct expression *condition, *then, *otherwise;
        } branches;
        struct {
            struct expression *items;
            size_t count;
        } list;
    } of;
};

enum form {
    NOTHING, ONE_STRING, OPTIONAL_STRING, OPTIONAL_EXPRESSION, PARAMETER, STRINGS, TWO_EXPRESSIONS, EXPRESSIONS
};

enum { REPEATABLE = 1, SYSTEM = 2, PRIVATE = 4, CACHE = 8 };

/* The attributes in the order of their names. */
static const struct attribute_row {
    const char *name;
    unsigned char length, form, marks;
} ATTRIBUTES[] = {
    {"android", 7, NOTHING, SYSTEM},
    {"arg", 3, PARAMETER, REPEATABLE},
    {"cache", 5, NOTHING, CACHE},
    {"confirm", 7, OPTIONAL_EXPRESSION, 0},
    {"default", 7, NOTHING, 0},
    {"doc", 3, OPTIONAL_STRING, 0},
    {"dragonfly", 9, NOTHING, SYSTEM},
    {"env", 3, TWO_EXPRESSIONS, REPEATABLE},
    {"exit-message", 12, NOTHING, 0},
    {"extension", 9, ONE_STRING, 0},
    {"freebsd", 7, NOTHING, SYSTEM},
    {"group", 5, ONE_STRING, REPEATABLE},
    {"linux", 5, NOTHING, SYSTEM},
    {"macos", 5, NOTHING, SYSTEM},
    {"metadata", 8, STRINGS, REPEATABLE},
    {"netbsd", 6, NOTHING, SYSTEM},
    {"no-cd", 5, NOTHING, 0},
    {"no-exit-message", 15, NOTHING, 0},
    {"no-quiet", 8, NOTHING, 0},
    {"openbsd", 7, NOTHING, SYSTEM},
    {"parallel", 8, NOTHING, 0},
    {"positional-arguments", 20, NOTHING, 0},
    {"private", 7, NOTHING, PRIVATE},
    {"script", 6, EXPRESSIONS, 0},
    {"unix", 4, NOTHING, SYSTEM},
    {"windows", 7, NOTHING, SYSTEM},
    {"working-directory", 17, ONE_STRING, 0},
};

enum setting_form { TRUTH, VALUE, INTERPRETER, INDENTATION, VERSION };

static const struct setting_row {
    const char *name;
    unsigned char length, form;
} SETTINGS[] = {
    {"allow-duplicate-recipes", 23, TRUTH}, {"allow-duplicate-variables", 25, TRUTH}, {"default-list", 12, TRUTH},
    {"default-script", 14, TRUTH}, {"dotenv-command", 14, VALUE}, {"dotenv-filename", 15, VALUE},
    {"dotenv-load", 11, TRUTH}, {"dotenv-override", 15, TRUTH}, {"dotenv-path", 11, VALUE},
    {"dotenv-required", 15, TRUTH}, {"export", 6, TRUTH}, {"fallback", 8, TRUTH}, {"guards", 6, TRUTH},
    {"ignore-comments", 15, TRUTH}, {"indentation", 11, INDENTATION}, {"lazy", 4, TRUTH}, {"lists", 5, TRUTH},
    {"minimum-version", 15, VERSION}, {"no-cd", 5, TRUTH}, {"no-exit-message", 15, TRUTH},
    {"positional-arguments", 20, TRUTH}, {"quiet", 5, TRUTH}, {"script-interpreter", 18, INTERPRETER},
    {"shell", 5, INTERPRETER}, {"tempdir", 7, VALUE}, {"unstable", 8, TRUTH}, {"windows-powershell", 18, TRUTH},
    {"windows-shell", 13, INTERPRETER}, {"working-directory", 17, VALUE},
};

/* The options of a parameter by `arg`; each that has a value is a string, but `value`. */
struct options {
    struct expression *help, *long_name, *max, *min, *short_name, *value;
    unsigned char flag, multiple, long_is_name;
};

struct attribute {
    unsigned char kind;
    struct place name;
    struct expression *arguments;
    size_t count;
    /* what stands between the parentheses */
    Bytes written;
    size_t written_length;
    struct options *options;
};

struct attributes {
    struct attribute *items;
    size_t count;
    unsigned marks;
};

enum { SINGULAR, PLUS, STAR };

struct parameter {
    unsigned char kind, export, has_default;
    char short_name;
    short min, max;
    uint32_t number;
    struct place name;
    struct expression default_value;
    /* those of the attribute */
    const struct options *options;
};

struct argument {
    int starred;
    struct expression value;
};

struct dependency {
    struct place *path;
    size_t path_count;
    struct argument *arguments;
    size_t count;
};

struct line {
    struct expression *parts;
    size_t count;
};

struct recipe {
    struct attributes attributes;
    struct place name;
    uint32_t number;
    int quiet;
    struct parameter *parameters;
    size_t parameter_count;
    struct dependency *priors, *subsequents;
    size_t prior_count, subsequent_count;
    struct line *body;
    size_t line_count;
};

struct assignment {
    struct attributes attributes;
    struct place name;
    uint32_t number;
    unsigned char eager, export, private;
    struct expression value;
};

struct alias {
    struct attributes attributes;
    struct place name;
    struct place *path;
    size_t path_count;
};

struct setting {
    struct attributes attributes;
    struct place name;
    unsigned char kind, form, truth;
    /* the value, or the interpreter's command and arguments as a list */
    struct expression value;
};

enum item_kind { ALIAS, ASSIGNMENT, COMMENT, NEWLINE, RECIPE, SET };

struct item {
    unsigned char kind;
    union {
        struct alias *alias;
        struct assignment *assignment;
        struct recipe *recipe;
        struct setting *setting;
        struct {
            Bytes bytes;
            size_t length;
        } comment;
    } of;
};

struct file {
    struct item *items;
    size_t count, room;
    int caches, sets_lists;
};

/* Names and where each stands in its list. A slot counts only in its own generation: so a set is emptied at once. */
struct slot {
    Bytes bytes;
    size_t length, place;
    uint64_t generation;
};

struct names {
    struct slot *slots;
    size_t room, count;
    uint64_t generation;
};

struct parser {
    Bytes source, end, at, line_start;
    size_t line;
    /* how many brackets are open, and whether an expression of a body is */
    size_t brackets;
    int in_body;
    uint32_t bindings, recipes;
    struct file file;
    struct names parameters, long_names;
    /* the items of lists that are not whole yet */
    unsigned char *stack;
    size_t stack_size, stack_room;
};

static void *checked(void *block)
{
    if (block == NULL) {
        fputs("error: out of memory\n", stderr);
        exit(2);
    }
    return block;
}

static void *copied(const void *block, size_t size)
{
    return size == 0 ? NULL : memcpy(checked(malloc(size)), block, size);
}

static _Noreturn void fail_at(size_t line, size_t column, const char *why)
{
    fprintf(stderr, "error: %s in line %zu, column %zu\n", why, line + 1, column + 1);
    exit(1);
}

static _Noreturn void fail_with(struct place place, const char *why) { fail_at(place.line, place.column, why); }

static _Noreturn void fail(struct parser *p, const char *why)
{
    fail_at(p->line, (size_t)(p->at - p->line_start), why);
}

static _Noreturn void unexpected(struct parser *p)
{
    fail(p, p->at == p->end ? "unexpected end of file" : "unexpected byte");
}

static void push(struct parser *p, const void *item, size_t size)
{
    if (p->stack_room - p->stack_size < size) {
        p->stack_room = 2 * p->stack_room + size;
        p->stack = checked(realloc(p->stack, p->stack_room));
    }
    memcpy(p->stack + p->stack_size, item, size);
    p->stack_size += size;
}

/* The list of what was pushed since the stack had this size. */
static void *popped(struct parser *p, size_t start, size_t size, size_t *count)
{
    void *list = copied(p->stack + start, p->stack_size - start);
    *count = (p->stack_size - start) / size;
    p->stack_size = start;
    return list;
}

/* The slot of a name, which is taken if it has this generation. */
static struct slot *slot_of(struct names *names, Bytes bytes, size_t length)
{
    uint64_t hash = 14695981039346656037u;
    for (size_t i = 0; i < length; i++) {
        hash = (hash ^ bytes[i]) * 1099511628211u;
    }
    size_t index = (hash ^ hash >> 32) & (names->room - 1);
    while (names->slots[index].generation == names->generation
           && (names->slots[index].length != length || memcmp(names->slots[index].bytes, bytes, length) != 0)) {
        index = (index + 1) & (names->room - 1);
    }
    return &names->slots[index];
}

static void empty(struct names *names)
{
    names->generation++;
    names->count = 0;
}

static void grow(struct names *names)
{
    struct names more = {.room = names->room == 0 ? 32 : 2 * names->room, .generation = 1};
    more.slots = checked(calloc(more.room, sizeof *more.slots));
    for (size_t i = 0; i < names->room; i++) {
        struct slot old = names->slots[i];
        if (old.generation == names->generation) {
            old.generation = more.generation;
            *slot_of(&more, old.bytes, old.length) = old;
        }
    }
    more.count = names->count;
    free(names->slots);
    *names = more;
}

/* Whether the name is new. */
static int add(struct names *names, Bytes bytes, size_t length, size_t place)
{
    if (2 * names->count >= names->room) {
        grow(names);
    }
    struct slot *slot = slot_of(names, bytes, length);
    if (slot->generation == names->generation) {
        return 0;
    }
    *slot = (struct slot){bytes, length, place, names->generation};
    names->count++;
    return 1;
}

static int is_blank(int c) { return c == ' ' || c == '\t'; }

/* 1 for what a name begins with, 2 for what else it may have. */
static const unsigned char WORD[256] = {
    ['a'] = 1, ['b'] = 1, ['c'] = 1, ['d'] = 1, ['e'] = 1, ['f'] = 1, ['g'] = 1, ['h'] = 1, ['i'] = 1, ['j'] = 1,
    ['k'] = 1, ['l'] = 1, ['m'] = 1, ['n'] = 1, ['o'] = 1, ['p'] = 1, ['q'] = 1, ['r'] = 1, ['s'] = 1, ['t'] = 1,
    ['u'] = 1, ['v'] = 1, ['w'] = 1, ['x'] = 1, ['y'] = 1, ['z'] = 1, ['A'] = 1, ['B'] = 1, ['C'] = 1, ['D'] = 1,
    ['E'] = 1, ['F'] = 1, ['G'] = 1, ['H'] = 1, ['I'] = 1, ['J'] = 1, ['K'] = 1, ['L'] = 1, ['M'] = 1, ['N'] = 1,
    ['O'] = 1, ['P'] = 1, ['Q'] = 1, ['R'] = 1, ['S'] = 1, ['T'] = 1, ['U'] = 1, ['V'] = 1, ['W'] = 1, ['X'] = 1,
    ['Y'] = 1, ['Z'] = 1, ['_'] = 1, ['0'] = 2, ['1'] = 2, ['2'] = 2, ['3'] = 2, ['4'] = 2, ['5'] = 2, ['6'] = 2,
    ['7'] = 2, ['8'] = 2, ['9'] = 2, ['-'] = 2,
};

static int is_letter(int c) { return WORD[c] == 1; }

static size_t line_end_length(Bytes at) { return *at == '\n' ? 1 : *at == '\r' && at[1] == '\n' ? 2 : 0; }

static void next_line(struct parser *p, Bytes start)
{
    p->line++;
    p->line_start = start;
}

static void take_line_end(struct parser *p)
{
    p->at += line_end_length(p->at);
    next_line(p, p->at);
}

/* Skips white space, of which line ends are part in brackets and behind a backslash, but not in bodies. */
static void skip(struct parser *p)
{
    for (;;) {
        int c = *p->at;
        if (is_blank(c)) {
            p->at++;
        } else if ((c == '\n' || c == '\r') && p->brackets > 0 && !p->in_body && line_end_length(p->at) > 0) {
            take_line_end(p);
        } else if (c == '\\' && !p->in_body && line_end_length(p->at + 1) > 0) {
            p->at++;
            take_line_end(p);
        } else {
            return;
        }
    }
}

static struct place place_here(struct parser *p, size_t length)
{
    return (struct place){(size_t)(p->at - p->source), length, p->line, (size_t)(p->at - p->line_start)};
}

static struct place take(struct parser *p, size_t length)
{
    struct place place = place_here(p, length);
    p->at += length;
    return place;
}

static int accept(struct parser *p, int c)
{
    skip(p);
    if (*p->at != c) {
        return 0;
    }
    p->at++;
    return 1;
}

static void expect(struct parser *p, int c)
{
    if (!accept(p, c)) {
        unexpected(p);
    }
}

static void open_bracket(struct parser *p)
{
    p->at++;
    p->brackets++;
}

static void close_bracket(struct parser *p, int c)
{
    expect(p, c);
    p->brackets--;
}

static int at_assign(struct parser *p) { return p->at[0] == ':' && p->at[1] == '='; }

static void expect_assign(struct parser *p)
{
    skip(p);
    if (!at_assign(p)) {
        unexpected(p);
    }
    p->at += 2;
}

static struct place name(struct parser *p)
{
    skip(p);
    Bytes end = p->at;
    if (!is_letter(*end)) {
        unexpected(p);
    }
    while (WORD[*++end] != 0) {
    }
    if ((*end == '\'' || *end == '"') && end - p->at == 1 && (*p->at == 'x' || *p->at == 'f')) {
        fail(p, "a string behind a letter");
    }
    return take(p, (size_t)(end - p->at));
}

static int is_word(struct parser *p, struct place name, const char *word, size_t length)
{
    Bytes text = p->source + name.offset;
    return name.length == length && *text == (unsigned char)*word && memcmp(text, word, length) == 0;
}

static int at_word(struct parser *p, const char *word, size_t length)
{
    skip(p);
    return (size_t)(p->end - p->at) >= length && memcmp(p->at, word, length) == 0 && WORD[p->at[length]] == 0;
}

static void skip_comment(struct parser *p)
{
    Bytes newline = memchr(p->at, '\n', (size_t)(p->end - p->at));
    p->at = newline == NULL ? p->end : newline[-1] == '\r' ? newline - 1 : newline;
}

static int at_line_end(struct parser *p) { return p->at == p->end || line_end_length(p->at) > 0; }

static void end_of_line(struct parser *p)
{
    skip(p);
    if (*p->at == '#') {
        skip_comment(p);
    }
    if (!at_line_end(p)) {
        unexpected(p);
    }
    if (p->at < p->end) {
        take_line_end(p);
    }
}

/* The end of a string that begins here. */
static Bytes closing(struct parser *p, int quote, int *has_escapes)
{
    Bytes at = p->at + 1;
    struct place start = place_here(p, 1);
    if (at[0] == quote && at[1] == quote) {
        fail(p, "three quotes");
    }
    for (; *at != quote; at++) {
        if (*at == '\n') {
            next_line(p, at + 1);
        } else if (*at == '\\' && quote == '"') {
            *has_escapes = 1;
            at += at[1] != '\n' && at + 1 < p->end;
        } else if (*at == 0 && at == p->end) {
            fail_with(start, "a string that no quote closes");
        }
    }
    return at;
}

static int digit(int c)
{
    if (c >= '0' && c <= '9') {
        return c - '0';
    }
    c |= 'a' ^ 'A';
    return c >= 'a' && c <= 'f' ? c - 'a' + 10 : -1;
}

static char *put_character(char *to, uint32_t c)
{
    if (c < 0x80) {
        *to++ = (char)c;
    } else if (c < 0x800) {
        *to++ = (char)(0xc0 | c >> 6);
        *to++ = (char)(0x80 | (c & 0x3f));
    } else if (c < 0x10000) {
        *to++ = (char)(0xe0 | c >> 12);
        *to++ = (char)(0x80 | (c >> 6 & 0x3f));
        *to++ = (char)(0x80 | (c & 0x3f));
    } else {
        *to++ = (char)(0xf0 | c >> 18);
        *to++ = (char)(0x80 | (c >> 12 & 0x3f));
        *to++ = (char)(0x80 | (c >> 6 & 0x3f));
        *to++ = (char)(0x80 | (c & 0x3f));
    }
    return to;
}

/* What `\u{` and up to six digits and `}` stand for; at is behind the `u`. */
static Bytes unicode(Bytes at, char **to, struct place place)
{
    uint32_t value = 0;
    size_t count = 0;
    if (*at++ != '{') {
        fail_with(place, "a wrong escape");
    }
    for (; digit(*at) >= 0 && count < 6; count++) {
        value = 16 * value + (uint32_t)digit(*at++);
    }
    if (*at != '}' || count == 0 || value > 0x10ffff || (value >= 0xd800 && value < 0xe000)) {
        fail_with(place, "a wrong escape");
    }
    *to = put_character(*to, value);
    return at + 1;
}

static struct text unescaped(Bytes at, Bytes end, struct place place)
{
    char *bytes = checked(malloc((size_t)(end - at))), *to = bytes;
    while (at < end) {
        int c = *at++;
        if (c != '\\') {
            *to++ = (char)c;
            continue;
        }
        switch (*at++) {
        case 'n': *to++ = '\n'; break;
        case 'r': *to++ = '\r'; break;
        case 't': *to++ = '\t'; break;
        case '"': *to++ = '"'; break;
        case '\\': *to++ = '\\'; break;
        case '\n': break;
        case 'u': at = unicode(at, &to, place); break;
        default: fail_with(place, "a wrong escape");
        }
    }
    return (struct text){bytes, (size_t)(to - bytes)};
}

static void string(struct parser *p, struct expression *out)
{
    skip(p);
    int quote = *p->at, has_escapes = 0;
    if (quote != '\'' && quote != '"') {
        unexpected(p);
    }
    out->kind = STRING;
    out->place = place_here(p, 0);
    Bytes start = p->at + 1, end = closing(p, quote, &has_escapes);
    out->place.length = (size_t)(end + 1 - p->at);
    out->of.text = has_escapes ? unescaped(start, end, out->place)
                               : (struct text){copied(start, (size_t)(end - start)), (size_t)(end - start)};
    p->at = end + 1;
}

static struct expression *boxed_string(struct parser *p)
{
    struct expression *box = checked(malloc(sizeof *box));
    string(p, box);
    return box;
}

static void command(struct parser *p, struct expression *out)
{
    int has_escapes = 0;
    out->kind = COMMAND;
    out->place = place_here(p, 0);
    Bytes start = p->at + 1, end = closing(p, '`', &has_escapes);
    if (start[0] == '#' && start[1] == '!') {
        fail_with(out->place, "a command that begins with #!");
    }
    out->place.length = (size_t)(end + 1 - p->at);
    out->of.text = (struct text){copied(start, (size_t)(end - start)), (size_t)(end - start)};
    p->at = end + 1;
}

static void expression(struct parser *p, int rank, int levels, struct expression *out);

static struct expression *boxed(struct parser *p, int rank, int levels)
{
    struct expression *box = checked(malloc(sizeof *box));
    expression(p, rank, levels, box);
    return box;
}

/* The expressions up to the bracket that closes, a comma between two and perhaps behind the last. */
static void elements(struct parser *p, int closer, int levels, struct expression *out)
{
    size_t start = p->stack_size;
    struct expression element;
    for (skip(p); *p->at != closer; skip(p)) {
        expression(p, WHOLE, levels, &element);
        push(p, &element, sizeof element);
        if (!accept(p, ',')) {
            break;
        }
    }
    close_bracket(p, closer);
    out->of.list.items = popped(p, start, sizeof element, &out->of.list.count);
}

static struct expression *braces(struct parser *p, int levels)
{
    skip(p);
    if (*p->at != '{') {
        unexpected(p);
    }
    open_bracket(p);
    struct expression *inner = boxed(p, WHOLE, levels);
    close_bracket(p, '}');
    return inner;
}

static void conditional(struct parser *p, int levels, struct expression *out)
{
    out->kind = CONDITIONAL;
    out->of.branches.condition = boxed(p, WHOLE, levels);
    out->of.branches.then = braces(p, levels);
    out->of.branches.otherwise = NULL;
    if (at_word(p, "else", 4)) {
        p->at += 4;
        out->of.branches.otherwise = at_word(p, "if", 2) ? boxed(p, PRIMARY, levels) : braces(p, levels);
    }
}

static void named(struct parser *p, int levels, struct expression *out)
{
    out->place = name(p);
    if (is_word(p, out->place, "if", 2)) {
        conditional(p, levels, out);
        return;
    }
    skip(p);
    if (*p->at != '(') {
        out->kind = VARIABLE;
        return;
    }
    open_bracket(p);
    out->kind = CALL;
    elements(p, ')', levels, out);
    if (is_word(p, out->place, "assert", 6) && (out->of.list.count < 1 || out->of.list.count > 2)) {
        fail_with(out->place, "a wrong number of arguments");
    }
}

static void primary(struct parser *p, int levels, struct expression *out)
{
    switch (*p->at) {
    case '\'':
    case '"':
        string(p, out);
        return;
    case '`':
        command(p, out);
        return;
    case '(':
        open_bracket(p);
        out->kind = GROUP;
        out->of.sides.left = boxed(p, WHOLE, levels);
        close_bracket(p, ')');
        return;
    case '[':
        out->kind = LIST;
        out->place = place_here(p, 1);
        open_bracket(p);
        elements(p, ']', levels, out);
        return;
    default:
        named(p, levels, out);
    }
}

/* The operator that stands here, how many bytes it has, and how loosely it binds. */
static enum operator operator_here(Bytes at, size_t *length, int *rank)
{
    *length = 2;
    switch (*at) {
    case '+':
        *rank = at[1] == '+' ? 3 : 2;
        *length = at[1] == '+' ? 2 : 1;
        return at[1] == '+' ? LIST_CONCATENATION : CONCATENATION;
    case '/':
        *rank = 2;
        *length = 1;
        return JOIN;
    case '=':
        *rank = 4;
        return at[1] == '=' ? EQUALITY : at[1] == '~' ? MATCH : NONE;
    case '!':
        *rank = 4;
        return at[1] == '=' ? INEQUALITY : at[1] == '~' ? MISMATCH : NONE;
    case '&':
        *rank = 5;
        return at[1] == '&' ? AND : NONE;
    case '|':
        *rank = 6;
        return at[1] == '|' ? OR : NONE;
    default:
        return NONE;
    }
}

static void prefixed(struct parser *p, enum operator operator, int rank, int levels, struct expression *out)
{
    out->kind = PREFIX;
    out->operator = (unsigned char)operator;
    out->place = take(p, 1);
    out->of.sides.left = boxed(p, rank, levels);
}

/* An expression with operators up to this rank, of which each binds what is on its right as far as it can, but a
 * comparison, which stands once. */
static void expression(struct parser *p, int rank, int levels, struct expression *out)
{
    size_t length;
    int reached = 0, next = 0;
    enum operator operator;
    skip(p);
    if (levels == 0) {
        fail(p, "nesting deeper than 256 levels");
    }
    levels--;
    if (*p->at == '/' && rank >= 2) {
        reached = 2;
        prefixed(p, JOIN, reached, levels, out);
    } else if (*p->at == '!' && rank >= 1 && p->at[1] != '=' && p->at[1] != '~') {
        reached = 1;
        prefixed(p, NOT, reached, levels, out);
    } else {
        primary(p, levels, out);
    }
    while (reached < rank) {
        skip(p);
        operator = operator_here(p->at, &length, &next);
        if (operator == NONE || next > rank || next <= reached) {
            return;
        }
        struct expression *left = copied(out, sizeof *out);
        out->kind = BINARY;
        out->operator = (unsigned char)operator;
        out->place = take(p, length);
        out->of.sides.left = left;
        out->of.sides.right = boxed(p, next == 4 ? 3 : next, levels);
        reached = next;
    }
}

static void free_expression(struct expression *e);

static void free_boxed(struct expression *box)
{
    if (box != NULL) {
        free_expression(box);
        free(box);
    }
}

static void free_list(struct expression *items, size_t count)
{
    for (size_t i = 0; i < count; i++) {
        free_expression(&items[i]);
    }
    free(items);
}

static void free_expression(struct expression *e)
{
    switch (e->kind) {
    case BINARY:
        free_boxed(e->of.sides.left);
        free_boxed(e->of.sides.right);
        return;
    case GROUP:
    case PREFIX:
        free_boxed(e->of.sides.left);
        return;
    case CONDITIONAL:
        free_boxed(e->of.branches.condition);
        free_boxed(e->of.branches.then);
        free_boxed(e->of.branches.otherwise);
        return;
    case CALL:
    case LIST:
        free_list(e->of.list.items, e->of.list.count);
        return;
    case COMMAND:
    case STRING:
        free(e->of.text.bytes);
        return;
    default:
        return;
    }
}

static struct place *path(struct parser *p, size_t *count)
{
    size_t start = p->stack_size;
    struct place part = name(p);
    push(p, &part, sizeof part);
    for (skip(p); p->at[0] == ':' && p->at[1] == ':'; skip(p)) {
        p->at += 2;
        part = name(p);
        push(p, &part, sizeof part);
    }
    return popped(p, start, sizeof part, count);
}

static int is_count(struct text text)
{
    for (size_t i = 0; i < text.length; i++) {
        if (text.bytes[i] < '0' || text.bytes[i] > '9') {
            return 0;
        }
    }
    return text.length >= 1 && text.length <= 4;
}

static int is_short(struct text text)
{
    return text.length == 1 && WORD[(unsigned char)*text.bytes] != 0 && *text.bytes != '_' && *text.bytes != '-';
}

/* The string behind `=`, once. */
static void assigned(struct parser *p, struct expression **place, struct place option)
{
    if (*place != NULL) {
        fail_with(option, "an option twice");
    }
    expect(p, '=');
    *place = boxed_string(p);
}

static void flag(unsigned char *place, struct place option)
{
    if (*place) {
        fail_with(option, "an option twice");
    }
    *place = 1;
}

static void option(struct parser *p, struct options *options)
{
    struct place option = name(p);
    if (is_word(p, option, "flag", 4)) {
        flag(&options->flag, option);
    } else if (is_word(p, option, "multiple", 8)) {
        flag(&options->multiple, option);
    } else if (is_word(p, option, "long", 4)) {
        skip(p);
        if (*p->at == '=' && !options->long_is_name) {
            assigned(p, &options->long_name, option);
        } else if (options->long_name == NULL) {
            flag(&options->long_is_name, option);
        } else {
            fail_with(option, "an option twice");
        }
    } else if (is_word(p, option, "help", 4)) {
        assigned(p, &options->help, option);
    } else if (is_word(p, option, "max", 3)) {
        assigned(p, &options->max, option);
    } else if (is_word(p, option, "min", 3)) {
        assigned(p, &options->min, option);
    } else if (is_word(p, option, "short", 5)) {
        assigned(p, &options->short_name, option);
    } else if (is_word(p, option, "value", 5) && options->value == NULL) {
        expect(p, '=');
        options->value = boxed(p, WHOLE, LEVELS);
    } else {
        fail_with(option, "an unknown option");
    }
}

static void check_options(struct options *o, struct place name)
{
    int is_named = o->long_name != NULL || o->long_is_name || o->short_name != NULL;
    if ((o->max != NULL && !is_count(o->max->of.text)) || (o->min != NULL && !is_count(o->min->of.text))
        || (o->short_name != NULL && !is_short(o->short_name->of.text))
        || (!is_named && (o->flag || o->multiple || o->value != NULL))) {
        fail_with(name, "wrong options");
    }
}

/* The arguments in parentheses, of which there is at least one. */
static void arguments(struct parser *p, enum form form, struct attribute *out)
{
    size_t start = p->stack_size;
    struct expression argument;
    do {
        if (form == PARAMETER && p->stack_size > start) {
            option(p, out->options);
        } else if (form == ONE_STRING || form == OPTIONAL_STRING || form == STRINGS || form == PARAMETER) {
            string(p, &argument);
            push(p, &argument, sizeof argument);
        } else {
            expression(p, WHOLE, LEVELS, &argument);
            push(p, &argument, sizeof argument);
        }
        if (!accept(p, ',')) {
            break;
        }
        skip(p);
    } while (*p->at != ')');
    skip(p);
    out->arguments = popped(p, start, sizeof argument, &out->count);
}

static int may_have(enum form form, size_t count)
{
    switch (form) {
    case NOTHING:
        return count == 0;
    case OPTIONAL_STRING:
    case OPTIONAL_EXPRESSION:
        return count <= 1;
    case ONE_STRING:
    case PARAMETER:
        return count == 1;
    case STRINGS:
        return count >= 1;
    case TWO_EXPRESSIONS:
        return count == 2;
    default:
        return 1;
    }
}

static unsigned char attribute_named(struct parser *p, struct place name)
{
    for (size_t i = 0; i < sizeof ATTRIBUTES / sizeof *ATTRIBUTES; i++) {
        if (is_word(p, name, ATTRIBUTES[i].name, ATTRIBUTES[i].length)) {
            return (unsigned char)i;
        }
    }
    fail_with(name, "an unknown attribute");
}

static void attribute(struct parser *p, struct attribute *out)
{
    *out = (struct attribute){.name = name(p)};
    out->kind = attribute_named(p, out->name);
    enum form form = ATTRIBUTES[out->kind].form;
    if (form == PARAMETER) {
        out->options = checked(calloc(1, sizeof *out->options));
    }
    if (accept(p, '(')) {
        out->written = p->at;
        arguments(p, form, out);
        out->written_length = (size_t)(p->at - out->written);
        expect(p, ')');
    } else if (accept(p, ':')) {
        skip(p);
        out->written = p->at;
        out->arguments = boxed_string(p);
        out->written_length = (size_t)(p->at - out->written);
        out->count = 1;
    }
    if (!may_have(form, out->count)) {
        fail_with(out->name, "a wrong number of arguments");
    }
    if (form == PARAMETER) {
        check_options(out->options, out->name);
    }
}

/* By name, then by arguments, then as they were given. */
static int compare_attributes(const void *a, const void *b)
{
    const struct attribute *x = a, *y = b;
    if (x->kind != y->kind) {
        return x->kind < y->kind ? -1 : 1;
    }
    size_t shorter = x->written_length < y->written_length ? x->written_length : y->written_length;
    int order = shorter == 0 ? 0 : memcmp(x->written, y->written, shorter);
    if (order != 0 || x->written_length != y->written_length) {
        return order != 0 ? order : x->written_length < y->written_length ? -1 : 1;
    }
    return x->name.offset < y->name.offset ? -1 : 1;
}

/* What stands in brackets before an item, as it was given. */
static struct attributes attributes(struct parser *p)
{
    size_t start = p->stack_size;
    struct attributes all = {NULL, 0, 0};
    struct attribute one;
    uint32_t seen = 0;
    while (*p->at == '[') {
        open_bracket(p);
        do {
            attribute(p, &one);
            unsigned marks = ATTRIBUTES[one.kind].marks;
            if (seen >> one.kind & 1 && !(marks & REPEATABLE)) {
                fail_with(one.name, "an attribute twice");
            }
            seen |= (uint32_t)1 << one.kind;
            all.marks |= marks;
            push(p, &one, sizeof one);
        } while (accept(p, ',') && (skip(p), *p->at != ']'));
        close_bracket(p, ']');
        skip(p);
        do {
            if (*p->at == '#') {
                skip_comment(p);
            }
            if (line_end_length(p->at) == 0) {
                unexpected(p);
            }
            take_line_end(p);
        } while (*p->at == '#');
        if (is_blank(*p->at)) {
            unexpected(p);
        }
    }
    all.items = popped(p, start, sizeof one, &all.count);
    return all;
}

static void put_in_order(struct attributes *all)
{
    for (size_t i = 1; i < all->count; i++) {
        if (compare_attributes(&all->items[i - 1], &all->items[i]) > 0) {
            qsort(all->items, all->count, sizeof *all->items, compare_attributes);
            return;
        }
    }
}

/* Puts them in order, if an item that takes attributes with any of these marks may carry them. */
static void fit(struct attributes *all, unsigned taken)
{
    for (size_t i = 0; i < all->count; i++) {
        if (!(ATTRIBUTES[all->items[i].kind].marks & taken)) {
            fail_with(all->items[i].name, "an attribute that the item doesn't take");
        }
    }
    put_in_order(all);
}

static void free_attributes(struct attributes *all)
{
    for (size_t i = 0; i < all->count; i++) {
        struct attribute *one = &all->items[i];
        free_list(one->arguments, one->count);
        if (one->options != NULL) {
            free_boxed(one->options->help);
            free_boxed(one->options->long_name);
            free_boxed(one->options->max);
            free_boxed(one->options->min);
            free_boxed(one->options->short_name);
            free_boxed(one->options->value);
            free(one->options);
        }
    }
    free(all->items);
}

static struct item *new_item(struct parser *p, enum item_kind kind)
{
    struct file *file = &p->file;
    if (file->count == file->room) {
        file->room = file->room == 0 ? 16 : 2 * file->room;
        file->items = checked(realloc(file->items, file->room * sizeof *file->items));
    }
    file->items[file->count].kind = (unsigned char)kind;
    return &file->items[file->count++];
}

static void comment(struct parser *p)
{
    struct item *item = new_item(p, COMMENT);
    Bytes start = p->at, end;
    skip_comment(p);
    for (end = p->at; is_blank(end[-1]) || (end[-1] >= '\n' && end[-1] <= '\r'); end--) {
    }
    item->of.comment.bytes = start;
    item->of.comment.length = (size_t)(end - start);
    end_of_line(p);
}

static void parameters(struct parser *p, struct recipe *recipe)
{
    size_t start = p->stack_size, count = 0;
    empty(&p->parameters);
    for (;;) {
        struct parameter one = {.kind = SINGULAR, .min = -1, .max = -1};
        skip(p);
        if (*p->at == '+' || *p->at == '*') {
            one.kind = *p->at++ == '+' ? PLUS : STAR;
        }
        one.export = (unsigned char)accept(p, '$');
        if (one.kind == SINGULAR && !one.export && !is_letter(*p->at)) {
            break;
        }
        one.name = name(p);
        one.number = p->bindings++;
        if (!add(&p->parameters, p->source + one.name.offset, one.name.length, count++)) {
            fail_with(one.name, "a parameter twice");
        }
        if (accept(p, '=')) {
            one.has_default = 1;
            expression(p, PRIMARY, LEVELS, &one.default_value);
        }
        push(p, &one, sizeof one);
        if (one.kind != SINGULAR) {
            break;
        }
    }
    recipe->parameters = popped(p, start, sizeof *recipe->parameters, &recipe->parameter_count);
}

static short count_of(const struct expression *string)
{
    short value = 0;
    for (size_t i = 0; string != NULL && i < string->of.text.length; i++) {
        value = (short)(10 * value + string->of.text.bytes[i] - '0');
    }
    return string == NULL ? -1 : value;
}

/* Gives the options of an attribute to the parameter that it names. */
static void give(struct parser *p, struct recipe *recipe, struct attribute *attribute, unsigned char *shorts)
{
    struct text name = attribute->arguments[0].of.text;
    struct text long_name = attribute->options->long_name != NULL ? attribute->options->long_name->of.text : name;
    int has_long = attribute->options->long_name != NULL || attribute->options->long_is_name;
    struct slot *slot = p->parameters.room == 0 ? NULL : slot_of(&p->parameters, (Bytes)name.bytes, name.length);
    if (slot == NULL || slot->generation != p->parameters.generation) {
        fail_with(attribute->name, "an unknown parameter");
    }
    struct parameter *parameter = &recipe->parameters[slot->place];
    if (parameter->options != NULL
        || (has_long && !add(&p->long_names, (Bytes)long_name.bytes, long_name.length, 0))) {
        fail_with(attribute->name, "a parameter or an option twice");
    }
    parameter->options = attribute->options;
    parameter->min = count_of(attribute->options->min);
    parameter->max = count_of(attribute->options->max);
    if (attribute->options->short_name != NULL) {
        parameter->short_name = *attribute->options->short_name->of.text.bytes;
        if (shorts[(unsigned char)parameter->short_name]++) {
            fail_with(attribute->name, "an option twice");
        }
    }
}

static void give_options(struct parser *p, struct recipe *recipe)
{
    unsigned char shorts[128] = {0};
    int behind_default = 0;
    empty(&p->long_names);
    for (size_t i = 0; i < recipe->attributes.count; i++) {
        if (recipe->attributes.items[i].options != NULL) {
            give(p, recipe, &recipe->attributes.items[i], shorts);
        }
    }
    for (size_t i = 0; i < recipe->parameter_count; i++) {
        const struct parameter *one = &recipe->parameters[i];
        const struct options *o = one->options;
        int is_option = o != NULL && (o->long_name != NULL || o->long_is_name || o->short_name != NULL);
        if (behind_default && !one->has_default && one->kind == SINGULAR && !is_option) {
            fail_with(one->name, "a parameter without a default behind one that has one");
        }
        behind_default |= one->has_default;
    }
}

static struct argument *dependency_arguments(struct parser *p, size_t *count)
{
    size_t start = p->stack_size;
    int stars = 0;
    struct argument one;
    for (skip(p); *p->at != ')'; skip(p)) {
        one.starred = accept(p, '*');
        stars += one.starred;
        expression(p, WHOLE, LEVELS, &one.value);
        push(p, &one, sizeof one);
    }
    if (stars > 1) {
        fail(p, "two starred arguments");
    }
    return popped(p, start, sizeof one, count);
}

static struct dependency *dependencies(struct parser *p, size_t *count)
{
    size_t start = p->stack_size;
    struct dependency one;
    for (;;) {
        skip(p);
        one.arguments = NULL;
        one.count = 0;
        if (*p->at == '(') {
            open_bracket(p);
            one.path = path(p, &one.path_count);
            one.arguments = dependency_arguments(p, &one.count);
            close_bracket(p, ')');
        } else if (is_letter(*p->at)) {
            one.path = path(p, &one.path_count);
        } else {
            return popped(p, start, sizeof one, count);
        }
        push(p, &one, sizeof one);
    }
}

/* Where the line's text ends. */
static Bytes text_end(struct parser *p)
{
    Bytes newline = memchr(p->at, '\n', (size_t)(p->end - p->at));
    return newline == NULL ? p->end : newline > p->at && newline[-1] == '\r' ? newline - 1 : newline;
}

/* The next `{{` that is not one of `{{{{`, or the end. */
static Bytes interpolation(Bytes at, Bytes end)
{
    while (at < end && (at = memchr(at, '{', (size_t)(end - at))) != NULL) {
        if (at[1] != '{') {
            at++;
        } else if (at[2] == '{' && at[3] == '{') {
            at += 4;
        } else {
            return at;
        }
    }
    return end;
}

/* The texts and the expressions of a line of a body, up to its end. */
static void body_line(struct parser *p, struct line *line)
{
    size_t start = p->stack_size;
    Bytes end = text_end(p);
    while (p->at < end) {
        struct expression part;
        Bytes next = interpolation(p->at, end);
        if (next > p->at) {
            part.kind = TEXT;
            part.place = take(p, (size_t)(next - p->at));
            push(p, &part, sizeof part);
        }
        if (next < end) {
            p->at += 2;
            p->in_body = 1;
            expression(p, WHOLE, LEVELS, &part);
            expect(p, '}');
            if (*p->at != '}') {
                unexpected(p);
            }
            p->at++;
            p->in_body = 0;
            push(p, &part, sizeof part);
            end = text_end(p);
        }
    }
    line->parts = popped(p, start, sizeof *line->parts, &line->count);
    if (p->at < p->end) {
        take_line_end(p);
    }
}

/* Skips blank lines and comments, and says whether a body begins behind them; if not, nothing is skipped. */
static int begins_body(struct parser *p)
{
    Bytes at = p->at, line_start = p->line_start;
    size_t line = p->line;
    while (p->at < p->end) {
        Bytes start = p->at;
        while (is_blank(*p->at)) {
            p->at++;
        }
        if (p->at == start && *p->at == '#') {
            skip_comment(p);
        }
        if (line_end_length(p->at) > 0) {
            take_line_end(p);
        } else if (p->at > start && is_blank(*start) && p->at < p->end) {
            p->at = start;
            return 1;
        } else {
            break;
        }
    }
    p->at = at;
    p->line = line;
    p->line_start = line_start;
    return 0;
}

/* The body, and how many blank lines are behind it. */
static size_t body(struct parser *p, struct recipe *recipe)
{
    size_t start = p->stack_size, width = 0, blank = 0;
    int first = *p->at;
    if (!begins_body(p)) {
        return 0;
    }
    first = *p->at;
    while (p->at < p->end) {
        struct line line = {NULL, 0};
        Bytes behind = p->at;
        while (is_blank(*behind)) {
            behind++;
        }
        if (line_end_length(behind) > 0) {
            p->at = behind;
            take_line_end(p);
            push(p, &line, sizeof line);
            blank++;
            continue;
        }
        if (behind == p->at || behind == p->end) {
            break;
        }
        if (width == 0) {
            width = (size_t)(behind - p->at);
        }
        for (Bytes end = p->at + width; p->at < end; p->at++) {
            if (*p->at != first) {
                fail(p, "other white space than that of the first line");
            }
        }
        body_line(p, &line);
        push(p, &line, sizeof line);
        blank = 0;
    }
    p->stack_size -= blank * sizeof(struct line);
    recipe->body = popped(p, start, sizeof *recipe->body, &recipe->line_count);
    return blank;
}

static void recipe(struct parser *p, struct place name, int quiet, struct attributes *attributes)
{
    struct recipe *recipe = checked(calloc(1, sizeof *recipe));
    recipe->name = name;
    recipe->number = p->recipes++;
    recipe->quiet = quiet;
    parameters(p, recipe);
    skip(p);
    if (*p->at != ':' || p->at[1] == ':' || p->at[1] == '=') {
        unexpected(p);
    }
    p->at++;
    recipe->priors = dependencies(p, &recipe->prior_count);
    if (p->at[0] == '&' && p->at[1] == '&') {
        p->at += 2;
        recipe->subsequents = dependencies(p, &recipe->subsequent_count);
        if (recipe->subsequent_count == 0) {
            unexpected(p);
        }
    }
    end_of_line(p);
    size_t blank = body(p, recipe);
    recipe->attributes = *attributes;
    put_in_order(&recipe->attributes);
    if (recipe->parameter_count > 0 || recipe->attributes.count > 0) {
        give_options(p, recipe);
    }
    p->file.caches |= (attributes->marks & CACHE) != 0;
    new_item(p, RECIPE)->of.recipe = recipe;
    for (; blank > 0; blank--) {
        new_item(p, NEWLINE);
    }
}

static void assignment(struct parser *p, struct place name, int export, int eager, struct attributes *attributes)
{
    struct assignment *assignment = checked(malloc(sizeof *assignment));
    fit(attributes, SYSTEM | PRIVATE);
    assignment->attributes = *attributes;
    assignment->name = name;
    assignment->number = p->bindings++;
    assignment->export = (unsigned char)export;
    assignment->eager = (unsigned char)eager;
    assignment->private = (attributes->marks & PRIVATE) != 0 || p->source[name.offset] == '_';
    expect_assign(p);
    expression(p, WHOLE, LEVELS, &assignment->value);
    end_of_line(p);
    new_item(p, ASSIGNMENT)->of.assignment = assignment;
}

static void alias(struct parser *p, struct place name, struct attributes *attributes)
{
    struct alias *alias = checked(malloc(sizeof *alias));
    fit(attributes, PRIVATE);
    alias->attributes = *attributes;
    alias->name = name;
    expect_assign(p);
    alias->path = path(p, &alias->path_count);
    end_of_line(p);
    new_item(p, ALIAS)->of.alias = alias;
}

static int is_indentation(struct text text)
{
    for (size_t i = 0; i < text.length; i++) {
        if (text.bytes[i] != ' ' && !(text.bytes[i] == '\t' && text.length == 1)) {
            return 0;
        }
    }
    return text.length >= 1 && text.length <= 8;
}

/* Three numbers that are not above 1.58.0. */
static int is_version(struct text text)
{
    const unsigned long current[3] = {1, 58, 0};
    unsigned long parts[3] = {0, 0, 0};
    size_t part = 0, digits = 0;
    for (size_t i = 0; i < text.length; i++) {
        if (text.bytes[i] == '.' && digits > 0 && part < 2) {
            part++;
            digits = 0;
        } else if (text.bytes[i] >= '0' && text.bytes[i] <= '9' && digits < 9 && (digits == 0 || parts[part] > 0)) {
            parts[part] = 10 * parts[part] + (unsigned long)(text.bytes[i] - '0');
            digits++;
        } else {
            return 0;
        }
    }
    for (size_t i = 0; i < 3; i++) {
        if (parts[i] != current[i]) {
            return part == 2 && digits > 0 && parts[i] < current[i];
        }
    }
    return part == 2 && digits > 0;
}

static void truth(struct parser *p, struct setting *setting)
{
    setting->truth = 1;
    skip(p);
    if (!at_assign(p)) {
        return;
    }
    p->at += 2;
    setting->truth = (unsigned char)at_word(p, "true", 4);
    if (!setting->truth && !at_word(p, "false", 5)) {
        unexpected(p);
    }
    p->at += setting->truth ? 4 : 5;
}

static void setting_value(struct parser *p, struct setting *setting)
{
    if (setting->form == TRUTH) {
        truth(p, setting);
        return;
    }
    expect_assign(p);
    skip(p);
    if (setting->form == VALUE) {
        expression(p, WHOLE, LEVELS, &setting->value);
    } else if (setting->form == INTERPRETER) {
        if (*p->at != '[') {
            unexpected(p);
        }
        open_bracket(p);
        setting->value.kind = LIST;
        elements(p, ']', LEVELS, &setting->value);
        if (setting->value.of.list.count == 0) {
            fail_with(setting->name, "a setting without a command");
        }
    } else {
        string(p, &setting->value);
        if (!(setting->form == INDENTATION ? is_indentation : is_version)(setting->value.of.text)) {
            fail_with(setting->value.place, "a wrong value of a setting");
        }
    }
}

static unsigned char setting_named(struct parser *p, struct place name)
{
    for (size_t i = 0; i < sizeof SETTINGS / sizeof *SETTINGS; i++) {
        if (is_word(p, name, SETTINGS[i].name, SETTINGS[i].length)) {
            return (unsigned char)i;
        }
    }
    fail_with(name, "an unknown setting");
}

static void setting(struct parser *p, struct place name, struct attributes *attributes)
{
    struct setting *setting = checked(malloc(sizeof *setting));
    fit(attributes, SYSTEM);
    setting->attributes = *attributes;
    setting->name = name;
    setting->kind = setting_named(p, name);
    setting->form = SETTINGS[setting->kind].form;
    setting_value(p, setting);
    end_of_line(p);
    p->file.sets_lists |= is_word(p, name, "lists", 5);
    new_item(p, SET)->of.setting = setting;
}

/* Takes an item that begins with this word before another name, if it is one. */
static int worded(struct parser *p, struct place first, struct attributes *attributes)
{
    int export = is_word(p, first, "export", 6), eager = is_word(p, first, "eager", 5);
    int is_set = is_word(p, first, "set", 3), is_alias = is_word(p, first, "alias", 5);
    if ((!export && !eager && !is_set && !is_alias) || !is_letter(*p->at)) {
        return 0;
    }
    Bytes at = p->at, line_start = p->line_start;
    size_t line = p->line;
    struct place second = name(p);
    skip(p);
    if (is_set && (at_assign(p) || at_line_end(p) || *p->at == '#')) {
        setting(p, second, attributes);
        return 1;
    }
    if (is_alias && at_assign(p)) {
        alias(p, second, attributes);
        return 1;
    }
    if ((export || eager) && at_assign(p)) {
        assignment(p, second, export, eager, attributes);
        return 1;
    }
    if ((export ? is_word(p, second, "eager", 5) : eager && is_word(p, second, "export", 6)) && is_letter(*p->at)) {
        struct place third = name(p);
        skip(p);
        if (at_assign(p)) {
            assignment(p, third, 1, 1, attributes);
            return 1;
        }
    }
    p->at = at;
    p->line = line;
    p->line_start = line_start;
    return 0;
}

static void attributed_item(struct parser *p)
{
    struct attributes all = attributes(p);
    int quiet = accept(p, '@');
    struct place first = name(p);
    skip(p);
    if (!quiet && at_assign(p)) {
        assignment(p, first, 0, 0, &all);
    } else if (quiet || !worded(p, first, &all)) {
        recipe(p, first, quiet, &all);
    }
}

static void parse(struct parser *p)
{
    if (p->end - p->at >= 3 && memcmp(p->at, "\xef\xbb\xbf", 3) == 0) {
        p->at += 3;
        p->line_start = p->at;
    }
    while (p->at < p->end) {
        Bytes start = p->at;
        while (is_blank(*p->at)) {
            p->at++;
        }
        if (line_end_length(p->at) > 0) {
            new_item(p, NEWLINE);
            take_line_end(p);
        } else if (p->at > start && p->at < p->end) {
            fail(p, "an indented line");
        } else if (*p->at == '\\' && line_end_length(p->at + 1) > 0) {
            skip(p);
        } else if (*p->at == '#') {
            comment(p);
        } else if (p->at < p->end) {
            attributed_item(p);
        }
    }
}

static void free_dependencies(struct dependency *all, size_t count)
{
    for (size_t i = 0; i < count; i++) {
        free(all[i].path);
        for (size_t j = 0; j < all[i].count; j++) {
            free_expression(&all[i].arguments[j].value);
        }
        free(all[i].arguments);
    }
    free(all);
}

static void free_recipe(struct recipe *recipe)
{
    free_attributes(&recipe->attributes);
    for (size_t i = 0; i < recipe->parameter_count; i++) {
        if (recipe->parameters[i].has_default) {
            free_expression(&recipe->parameters[i].default_value);
        }
    }
    free(recipe->parameters);
    free_dependencies(recipe->priors, recipe->prior_count);
    free_dependencies(recipe->subsequents, recipe->subsequent_count);
    for (size_t i = 0; i < recipe->line_count; i++) {
        free_list(recipe->body[i].parts, recipe->body[i].count);
    }
    free(recipe->body);
    free(recipe);
}

static void free_item(struct item *item)
{
    switch (item->kind) {
    case ALIAS:
        free_attributes(&item->of.alias->attributes);
        free(item->of.alias->path);
        free(item->of.alias);
        return;
    case ASSIGNMENT:
        free_attributes(&item->of.assignment->attributes);
        free_expression(&item->of.assignment->value);
        free(item->of.assignment);
        return;
    case RECIPE:
        free_recipe(item->of.recipe);
        return;
    case SET:
        free_attributes(&item->of.setting->attributes);
        if (item->of.setting->form != TRUTH) {
            free_expression(&item->of.setting->value);
        }
        free(item->of.setting);
        return;
    default:
        return;
    }
}

static void free_all(struct parser *p)
{
    for (size_t i = 0; i < p->file.count; i++) {
        free_item(&p->file.items[i]);
    }
    free(p->file.items);
    free(p->parameters.slots);
    free(p->long_names.slots);
    free(p->stack);
}

int main(int count, char **words)
{
    long rounds = count > 1 ? strtol(words[1], NULL, 10) : 1;
    unsigned char *text = NULL;
    size_t length = 0, room = 0, got, items = 0;
    do {
        if (room - length < 2) {
            room = room == 0 ? 1 << 16 : 2 * room;
            text = checked(realloc(text, room));
        }
        got = fread(text + length, 1, room - length - 1, stdin);
        length += got;
    } while (got > 0);
    text[length] = 0;
    for (long round = 0; round < rounds; round++) {
        struct parser p = {.source = text, .end = text + length, .at = text, .line_start = text};
        parse(&p);
        items = p.file.count;
        free_all(&p);
    }
    printf("%zu\n", items);
    free(text);
    return 0;
}
