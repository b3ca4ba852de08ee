/* A tokenizer by hand for the same kinds of tokens, to compare the lexer with: it reads standard input, cuts it into
 * tokens as often as its first word says, and prints their number and a digest of their places. */
#include <stdint.h>
#include <stdio.h>
#include <stdlib.h>
#include <string.h>

typedef const unsigned char *Bytes;

enum kind {
    AMPERSANDS, ASTERISK, AT, BACKTICK, BANG, BANG_EQUALS, BANG_TILDE, BARS, BRACE_L, BRACE_R, BRACKET_L, BRACKET_R,
    BYTE_ORDER_MARK, COLON, COLON_COLON, COLON_EQUALS, COMMA, COMMENT, DEDENT, DOLLAR, END_OF_FILE, END_OF_LINE, EQUALS,
    EQUALS_EQUALS, EQUALS_TILDE, FORMAT_CONTINUE, FORMAT_END, FORMAT_START, IDENTIFIER, INDENT, INTERPOLATION_END,
    INTERPOLATION_START, PAREN_L, PAREN_R, PLUS, PLUS_PLUS, QUESTION_MARK, SLASH, STRING, TEXT, WHITESPACE
};

enum line { BEGIN, START, AHEAD, INSIDE, BODY_START, BODY_LINE };

/* The same fields as a token of the lexer has. */
struct token {
    uint32_t column, length, line, offset;
    const char *path;
    size_t path_length;
    Bytes source;
    size_t source_length;
    unsigned char kind;
};

/* What is open: a bracket by its closing character, 'I' for an expression in a body, 'H' for one in a format string. */
struct open {
    unsigned char sort, quote, tripled, around;
};

struct lexer {
    Bytes source, at, end;
    size_t line_number, column;
    enum line line;
    int may, indent_byte;
    size_t indent_width;
    struct open *opened;
    size_t open_count, open_room;
    struct token *tokens;
    size_t count, room;
};

static void *grown(void *block, size_t size)
{
    void *more = realloc(block, size);
    if (more == NULL) {
        fputs("out of memory\n", stderr);
        exit(2);
    }
    return more;
}

static void fail(struct lexer *l)
{
    printf("error at %zu\n", (size_t)(l->at - l->source));
    exit(1);
}

static int byte_at(struct lexer *l, Bytes p, size_t n)
{
    return (size_t)(l->end - p) > n ? p[n] : 0;
}

static size_t line_end_length(struct lexer *l, Bytes p)
{
    if (p == l->end) {
        return 0;
    }
    if (*p == '\n') {
        return 1;
    }
    return *p == '\r' && byte_at(l, p, 1) == '\n' ? 2 : 0;
}

static int is_blank(int c) { return c == ' ' || c == '\t'; }

static int is_letter(int c) { return (c >= 'a' && c <= 'z') || (c >= 'A' && c <= 'Z') || c == '_'; }

static int is_word(int c) { return is_letter(c) || (c >= '0' && c <= '9') || c == '-'; }

static Bytes past_blanks(struct lexer *l, Bytes p)
{
    while (p < l->end && is_blank(*p)) {
        p++;
    }
    return p;
}

static int opens_interpolation(struct lexer *l, Bytes p)
{
    return byte_at(l, p, 0) == '{' && byte_at(l, p, 1) == '{' && !(byte_at(l, p, 2) == '{' && byte_at(l, p, 3) == '{');
}

static int has_lines(enum kind kind)
{
    return kind == STRING || kind == BACKTICK || kind == WHITESPACE || kind == END_OF_LINE || kind == FORMAT_START
        || kind == FORMAT_CONTINUE || kind == FORMAT_END;
}

static void take(struct lexer *l, enum kind kind, size_t length)
{
    if (l->count == l->room) {
        l->room = l->room == 0 ? 4 : 2 * l->room;
        l->tokens = grown(l->tokens, l->room * sizeof *l->tokens);
    }
    l->tokens[l->count++] = (struct token){l->column, length, l->line_number, (size_t)(l->at - l->source), "justfile", 8,
                                           l->source, (size_t)(l->end - l->source), (unsigned char)kind};
    Bytes end = l->at + length;
    if (has_lines(kind)) {
        for (Bytes p = l->at; p < end; p++) {
            if (*p == '\n') {
                l->line_number++;
                l->column = 0;
            } else {
                l->column++;
            }
        }
    } else if (kind != BYTE_ORDER_MARK) {
        l->column += length;
    }
    l->at = end;
}

static void push(struct lexer *l, struct open open)
{
    if (l->open_count == l->open_room) {
        l->open_room = l->open_room == 0 ? 4 : 2 * l->open_room;
        l->opened = grown(l->opened, l->open_room * sizeof *l->opened);
    }
    l->opened[l->open_count++] = open;
}

static struct open innermost(struct lexer *l)
{
    return l->open_count == 0 ? (struct open){0, 0, 0, 0} : l->opened[l->open_count - 1];
}

static int in_brackets(struct lexer *l)
{
    struct open open = innermost(l);
    return open.sort == ')' || open.sort == ']' || open.sort == '}' || (open.sort == 'H' && open.around);
}

/* Behind a token that is no line end, comment, white space, or colon. */
static void go_on(struct lexer *l)
{
    if (l->line == BEGIN || l->line == START || l->line == AHEAD) {
        l->line = INSIDE;
        l->may = 0;
    }
}

static int is_quoted(struct lexer *l, Bytes p, int quote, int tripled)
{
    return byte_at(l, p, 0) == quote && (!tripled || (byte_at(l, p, 1) == quote && byte_at(l, p, 2) == quote));
}

/* The end of a part of a string that begins at p, or null; *opens says whether an expression ends it. */
static Bytes past_part(struct lexer *l, Bytes p, int format, int quote, int tripled, int *opens)
{
    while (p < l->end) {
        if (is_quoted(l, p, quote, tripled)) {
            *opens = 0;
            return p + (tripled ? 3 : 1);
        }
        if (format && opens_interpolation(l, p)) {
            *opens = 1;
            return p + 2;
        }
        if (quote == '"' && *p == '\\') {
            p += 2;
        } else if (format && byte_at(l, p, 0) == '{' && byte_at(l, p, 1) == '{') {
            p += 4;
        } else {
            p++;
        }
    }
    return NULL;
}

static void string(struct lexer *l, enum kind kind, size_t letters)
{
    Bytes p = l->at + letters;
    int quote = *p;
    int tripled = byte_at(l, p, 1) == quote && byte_at(l, p, 2) == quote;
    int opens = 0;
    Bytes end = past_part(l, p + (tripled ? 3 : 1), kind == FORMAT_START, quote, tripled, &opens);
    if (end == NULL) {
        fail(l);
    }
    int around = in_brackets(l);
    take(l, kind, (size_t)(end - l->at));
    go_on(l);
    if (opens) {
        push(l, (struct open){'H', (unsigned char)quote, (unsigned char)tripled, (unsigned char)around});
    }
}

static void closing(struct lexer *l, int c)
{
    struct open open = innermost(l);
    if (open.sort == c) {
        take(l, c == ')' ? PAREN_R : c == ']' ? BRACKET_R : BRACE_R, 1);
        l->open_count--;
    } else if (c == '}' && byte_at(l, l->at, 1) == '}' && open.sort == 'I') {
        take(l, INTERPOLATION_END, 2);
        l->open_count--;
    } else if (c == '}' && byte_at(l, l->at, 1) == '}' && open.sort == 'H') {
        int opens = 0;
        Bytes end = past_part(l, l->at + 2, 1, open.quote, open.tripled, &opens);
        if (end == NULL) {
            fail(l);
        }
        take(l, opens ? FORMAT_CONTINUE : FORMAT_END, (size_t)(end - l->at));
        if (!opens) {
            l->open_count--;
        }
    } else {
        fail(l);
    }
    go_on(l);
}

static void mark(struct lexer *l, enum kind kind, size_t length)
{
    take(l, kind, length);
    go_on(l);
}

static void opening(struct lexer *l, enum kind kind, unsigned char closer)
{
    mark(l, kind, 1);
    push(l, (struct open){closer, 0, 0, 0});
}

static void line_end(struct lexer *l, size_t length)
{
    if (in_brackets(l)) {
        take(l, WHITESPACE, length);
        return;
    }
    take(l, END_OF_LINE, length);
    if (l->line != INSIDE) {
        l->line = START;
    } else if (l->open_count == 0) {
        l->line = START;
    } else {
        l->may = 0;
    }
}

static void white(struct lexer *l, size_t length)
{
    take(l, WHITESPACE, length);
    if (l->line == BEGIN || l->line == START) {
        l->line = AHEAD;
    }
}

static void colon(struct lexer *l)
{
    int brackets = in_brackets(l);
    take(l, COLON, 1);
    if (l->line == BODY_LINE) {
        return;
    }
    if (l->line != INSIDE) {
        l->line = INSIDE;
        l->may = 1;
    } else if (!brackets) {
        l->may = 1;
    }
}

/* A token of a line outside bodies, or of an expression in a body. */
static void code(struct lexer *l)
{
    int c = *l->at;
    int next = byte_at(l, l->at, 1);
    Bytes p = l->at;
    if (is_letter(c)) {
        if ((c == 'x' || c == 'f') && (next == '\'' || next == '"')) {
            string(l, c == 'x' ? STRING : FORMAT_START, 1);
            return;
        }
        while (p < l->end && is_word(*p)) {
            p++;
        }
        mark(l, IDENTIFIER, (size_t)(p - l->at));
        return;
    }
    switch (c) {
    case ' ':
    case '\t':
        white(l, (size_t)(past_blanks(l, p) - p));
        return;
    case '\n':
    case '\r':
        if (line_end_length(l, p) == 0) {
            fail(l);
        }
        line_end(l, line_end_length(l, p));
        return;
    case '\\':
        if (line_end_length(l, p + 1) == 0) {
            fail(l);
        }
        white(l, 1 + line_end_length(l, p + 1));
        return;
    case '#':
        while (p < l->end && line_end_length(l, p) == 0) {
            p++;
        }
        take(l, COMMENT, (size_t)(p - l->at));
        if (l->line == BEGIN || l->line == START) {
            l->line = AHEAD;
        } else {
            go_on(l);
        }
        return;
    case '\'':
    case '"':
        string(l, STRING, 0);
        return;
    case '`':
        string(l, BACKTICK, 0);
        return;
    case ':':
        if (next == ':') {
            mark(l, COLON_COLON, 2);
        } else if (next == '=') {
            mark(l, COLON_EQUALS, 2);
        } else {
            colon(l);
        }
        return;
    case '=':
        mark(l, next == '=' ? EQUALS_EQUALS : next == '~' ? EQUALS_TILDE : EQUALS, next == '=' || next == '~' ? 2 : 1);
        return;
    case '!':
        mark(l, next == '=' ? BANG_EQUALS : next == '~' ? BANG_TILDE : BANG, next == '=' || next == '~' ? 2 : 1);
        return;
    case '&':
    case '|':
        if (next != c) {
            fail(l);
        }
        mark(l, c == '&' ? AMPERSANDS : BARS, 2);
        return;
    case '+':
        mark(l, next == '+' ? PLUS_PLUS : PLUS, next == '+' ? 2 : 1);
        return;
    case '*':
        mark(l, ASTERISK, 1);
        return;
    case '/':
        mark(l, SLASH, 1);
        return;
    case '@':
        mark(l, AT, 1);
        return;
    case '$':
        mark(l, DOLLAR, 1);
        return;
    case '?':
        mark(l, QUESTION_MARK, 1);
        return;
    case ',':
        mark(l, COMMA, 1);
        return;
    case '(':
        opening(l, PAREN_L, ')');
        return;
    case '[':
        opening(l, BRACKET_L, ']');
        return;
    case '{':
        opening(l, BRACE_L, '}');
        return;
    case ')':
    case ']':
    case '}':
        closing(l, c);
        return;
    default:
        fail(l);
    }
}

/* An indented line outside bodies. */
static void indent(struct lexer *l, Bytes blanks_end)
{
    size_t length = (size_t)(blanks_end - l->at);
    int first = *l->at;
    for (Bytes p = l->at; l->may && p < blanks_end; p++) {
        if (*p != first) {
            fail(l);
        }
    }
    take(l, INDENT, length);
    l->line = l->may ? BODY_LINE : INSIDE;
    l->may = 0;
    l->indent_byte = first;
    l->indent_width = length;
}

static void line_start(struct lexer *l)
{
    Bytes p = past_blanks(l, l->at);
    if (p > l->at && p < l->end && line_end_length(l, p) == 0) {
        indent(l, p);
    } else if (p > l->at) {
        white(l, (size_t)(p - l->at));
    } else {
        code(l);
    }
}

static void body_start(struct lexer *l)
{
    size_t end = line_end_length(l, l->at);
    Bytes p = past_blanks(l, l->at);
    size_t width = 0;
    if (end > 0) {
        take(l, END_OF_LINE, end);
    } else if (p == l->at) {
        take(l, DEDENT, 0);
        l->line = START;
        l->may = 0;
    } else if (p == l->end || line_end_length(l, p) > 0) {
        take(l, WHITESPACE, (size_t)(p - l->at));
        l->line = BODY_LINE;
    } else {
        while (width < l->indent_width && byte_at(l, l->at, width) == l->indent_byte) {
            width++;
        }
        if (width < l->indent_width) {
            fail(l);
        }
        take(l, WHITESPACE, width);
        l->line = BODY_LINE;
    }
}

static void body_line(struct lexer *l)
{
    size_t end = line_end_length(l, l->at);
    if (l->open_count > 0) {
        if (l->at == l->end || end > 0 || (*l->at == '\\' && line_end_length(l, l->at + 1) > 0)) {
            fail(l);
        }
        code(l);
    } else if (l->at == l->end) {
        take(l, DEDENT, 0);
        l->line = START;
        l->may = 0;
    } else if (end > 0) {
        take(l, END_OF_LINE, end);
        l->line = BODY_START;
    } else if (opens_interpolation(l, l->at)) {
        take(l, INTERPOLATION_START, 2);
        push(l, (struct open){'I', 0, 0, 0});
    } else {
        Bytes p = l->at;
        while (p < l->end && line_end_length(l, p) == 0 && !opens_interpolation(l, p)) {
            p += byte_at(l, p, 0) == '{' && byte_at(l, p, 1) == '{' ? 4 : 1;
        }
        take(l, TEXT, (size_t)(p - l->at));
    }
}

static void lex(struct lexer *l)
{
    for (;;) {
        if (l->line == BODY_START) {
            body_start(l);
        } else if (l->line == BODY_LINE) {
            body_line(l);
        } else if (l->at == l->end) {
            take(l, END_OF_FILE, 0);
            return;
        } else if (l->line == BEGIN && l->end - l->at >= 3 && memcmp(l->at, "\xef\xbb\xbf", 3) == 0) {
            take(l, BYTE_ORDER_MARK, 3);
            l->line = START;
        } else if (l->line == BEGIN || l->line == START) {
            line_start(l);
        } else {
            code(l);
        }
    }
}

static uint64_t digest(const struct token *tokens, size_t count)
{
    uint64_t sum = 0;
    for (size_t i = 0; i < count; i++) {
        sum = sum * 31 + tokens[i].offset;
        sum = sum * 31 + tokens[i].length;
        sum = sum * 31 + tokens[i].line;
        sum = sum * 31 + tokens[i].column;
    }
    return sum;
}

int main(int count, char **words)
{
    long rounds = count > 1 ? strtol(words[1], NULL, 10) : 1;
    unsigned char *text = NULL;
    size_t length = 0, room = 0, got;
    do {
        if (length == room) {
            room = room == 0 ? 1 << 16 : 2 * room;
            text = grown(text, room);
        }
        got = fread(text + length, 1, room - length, stdin);
        length += got;
    } while (got > 0);
    size_t tokens = 0;
    uint64_t sum = 0;
    for (long round = 0; round < rounds; round++) {
        struct lexer l = {.source = text, .at = text, .end = text + length, .line = BEGIN};
        lex(&l);
        tokens = l.count;
        sum = digest(l.tokens, l.count);
        free(l.tokens);
        free(l.opened);
    }
    printf("%zu %llu\n", tokens, (unsigned long long)sum);
    return 0;
}
