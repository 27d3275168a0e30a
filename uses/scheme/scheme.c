/* An interpreter of a small Scheme whose values are objects of a host, but for integers, constants and procedures that capture
 * nothing, which are immediate. It reads a form, makes code of it for a machine with places, and does it; README.md says what of
 * Scheme there is. The memory is host.h, or another one with the same calls (benches/scheme_bdwgc.h). It is C11. */
#include <inttypes.h>
#include <stdbool.h>
#include <stdio.h>
#include <stdlib.h>
#include <string.h>
typedef uint64_t word;
typedef uint32_t slot; /* a place, of which words[place] is what it has */
enum tag { INTEGER, SPECIAL, PAIR, PROCEDURE, STRING, SYMBOL, OTHER, TAG_BITS = 3 };
enum special { CONSTANT, CODE, PRIMITIVE, KIND = 16 + TAG_BITS }; /* kinds of special words, and where the kind is */
enum { MOST_TEXT = 4096, MOST_OWN = 64 }; /* bytes of a string or a name, and a zero; variables of a procedure */
#define SPECIAL_OF(kind, number) ((word)(kind) << KIND | (word)(number) << TAG_BITS | SPECIAL)
static const word NIL = SPECIAL_OF(CONSTANT, 0), FALSE = SPECIAL_OF(CONSTANT, 1), TRUE = SPECIAL_OF(CONSTANT, 2),
                  NOTHING = SPECIAL_OF(CONSTANT, 3), UNSET = SPECIAL_OF(CONSTANT, 4);
static inline enum tag tag_of(word it) { return (enum tag)(it & 7); }
static inline bool is_reference(word it) { return tag_of(it) > SPECIAL; }
static inline bool is_special(word it, enum special kind) { return tag_of(it) == SPECIAL && it >> KIND == kind; }
static inline uint32_t number_in(word special) { return special >> TAG_BITS & ((1 << (KIND - TAG_BITS)) - 1); }
static inline int64_t integer_of(word it) { return (int64_t)it >> TAG_BITS; }
static _Noreturn void fail(const char *what, const char *why) {
    fflush(stdout);
    fprintf(stderr, "scheme: %s%s%s\n", what, *why ? ": " : "", why);
    exit(1);
}
/* Room for at least one more of these; without a `room`, for `each` bytes. */
static void *grown(void *at, size_t *room, size_t each) {
    if (room != NULL) each *= *room = *room * 2 + 64;
    at = realloc(at, each);
    if (at == NULL) fail("no memory", "");
    return at;
}
static void drop_dead(uint32_t first_context);
#ifndef MEMORY
#define MEMORY "host.h"
#endif
#include MEMORY

/* ---- what is read: it is memory of C until its form is done */
enum is { IS_INTEGER, IS_NAME, IS_STRING, IS_PAIR, IS_NIL, IS_TRUE, IS_FALSE };
struct datum { enum is is; int64_t integer; const char *text; const struct datum *head, *tail; };
typedef const struct datum *form;
static FILE *input;
static void **taken;
static size_t taken_count, taken_room;
static void *take(size_t bytes) {
    if (taken_count == taken_room) taken = (void **)grown(taken, &taken_room, sizeof *taken);
    return taken[taken_count++] = grown(NULL, NULL, bytes);
}
static struct datum *made(enum is is, int64_t integer, const char *text, form head, form tail) {
    struct datum *it = (struct datum *)take(sizeof *it);
    *it = (struct datum){ is, integer, text, head, tail };
    return it;
}
static form atom(enum is is) { return made(is, 0, NULL, NULL, NULL); }
static form name(const char *text) { return made(IS_NAME, 0, text, NULL, NULL); }
static struct datum *pair(form head, form tail) { return made(IS_PAIR, 0, NULL, head, tail); }
static form list(form first, form second, form third) {
    form end = third != NULL ? pair(third, atom(IS_NIL)) : atom(IS_NIL);
    return pair(first, second != NULL ? pair(second, end) : end);
}
static form after(form of, unsigned number) {
    for (; of->is == IS_PAIR && number > 0; number--) of = of->tail;
    return of;
}
static form part(form of, unsigned number) {
    of = after(of, number);
    if (of->is != IS_PAIR) fail("a form lacks a part", "");
    return of->head;
}
static unsigned length_of(form it) { return it->is == IS_PAIR ? 1 + length_of(it->tail) : 0; }
static bool is_name(form it, const char *text) { return it->is == IS_NAME && strcmp(it->text, text) == 0; }
static bool begins(form it, const char *text) { return it->is == IS_PAIR && is_name(it->head, text); }
static int next_letter(void) {
    int c = getc(input);
    for (bool is_comment = false; c != EOF && (is_comment || strchr(" \n\t\r;", c)); c = getc(input))
        is_comment = c == ';' || (is_comment && c != '\n');
    return c;
}
static form read_word(int c, bool is_string) {
    char text[MOST_TEXT], *end;
    size_t length = 0;
    for (; is_string ? c != '"' : c != EOF && !strchr(" \n\t\r();'\"", c); c = getc(input)) {
        if (is_string && c == '\\' && (c = getc(input)) == 'n') c = '\n';
        if (c == EOF || length + 1 == MOST_TEXT) fail("a word has no end", "");
        text[length++] = (char)c;
    }
    if (!is_string) ungetc(c, input);
    text[length] = 0;
    int64_t integer = strtoll(text, &end, 10);
    if (!is_string && *end == 0) return made(IS_INTEGER, integer, NULL, NULL, NULL);
    if (!is_string && (strcmp(text, "#t") == 0 || strcmp(text, "#f") == 0)) return atom(text[1] == 't' ? IS_TRUE : IS_FALSE);
    return made(is_string ? IS_STRING : IS_NAME, 0, strcpy((char *)take(length + 1), text), NULL, NULL);
}
/* Null at the end of the input. */
static form read_form(void) {
    int c = next_letter();
    if (c == EOF) return NULL;
    if (c == '\'') return list(name("quote"), read_form(), NULL);
    if (c == '"') return read_word(getc(input), true);
    if (c != '(') return read_word(c, false);
    struct datum start = { .tail = atom(IS_NIL) }, *last = &start;
    while ((c = next_letter()) != ')') {
        ungetc(c, input);
        form one = c != EOF ? read_form() : NULL;
        if (one == NULL) fail("a list has no end", "");
        struct datum *next = pair(one, atom(IS_NIL));
        last->tail = next;
        last = next;
    }
    return start.tail;
}

/* ---- primitives: of at most two operands, in any places; without any, `a` is above all places that are used */
static inline void need(bool is, const char *what) { if (!is) fail("a wrong operand", what); }
static inline word integer(int64_t number) {
    need(number >= -((int64_t)1 << 54) && number < (int64_t)1 << 54, "an integer is too large");
    return (word)number << TAG_BITS;
}
static inline void need_a(enum tag tag, slot at) {
    static const char *const names[] = { "no integer", "", "no pair", "no procedure", "no string", "no symbol", "no object" };
    need(tag == OTHER ? is_reference(words[at]) : tag_of(words[at]) == tag, names[tag]);
}
#define DO(called, ...) \
    static inline void called(slot dst, slot a, slot b) { (void)dst, (void)a, (void)b; __VA_ARGS__; }
#define IS(...) words[dst] = (__VA_ARGS__) ? TRUE : FALSE
#define INTEGERS need_a(INTEGER, a); need_a(INTEGER, b)
#define A integer_of(words[a])
#define B integer_of(words[b])
DO(add, INTEGERS; words[dst] = integer(A + B))
DO(subtract, INTEGERS; words[dst] = integer(A - B))
DO(multiply, INTEGERS; int64_t it; need(!__builtin_mul_overflow(A, B, &it), "an integer is too large"); words[dst] = integer(it))
DO(quotient, INTEGERS; need(B != 0, "zero"); words[dst] = integer(A / B))
DO(rest_of, INTEGERS; need(B != 0, "zero"); words[dst] = integer(A % B))
DO(is_equal, INTEGERS; IS(words[a] == words[b]))
DO(is_less, INTEGERS; IS(A < B))
DO(is_more, INTEGERS; IS(A > B))
DO(is_eq, IS(is_same(a, b)))
DO(is_not, IS(words[a] == FALSE))
DO(is_null, IS(words[a] == NIL))
DO(is_pair, IS(tag_of(words[a]) == PAIR))
DO(is_symbol, IS(tag_of(words[a]) == SYMBOL))
DO(cons, make_pair(dst, a, b))
DO(car, need_a(PAIR, a); head_of(dst, a))
DO(cdr, need_a(PAIR, a); tail_of(dst, a))
DO(cadr, need_a(PAIR, a); need(tag_of(tail_seen(a)) == PAIR, "no pair"); second_of(dst, a))
DO(is_last, need_a(PAIR, a); IS(tail_seen(a) == NIL))
DO(text_of_number, char text[24]; need_a(INTEGER, a); snprintf(text, sizeof text, "%" PRId64, A); make_string(dst, text))
DO(symbol_of_text, char text[MOST_TEXT]; need_a(STRING, a); bytes_of(a, text); make_symbol(dst, text))
DO(text_of_symbol, char text[MOST_TEXT]; need_a(SYMBOL, a); strcpy(text, symbol_name(a)); make_string(dst, text))
DO(join, char text[2 * MOST_TEXT]; need_a(STRING, a); need_a(STRING, b); bytes_of(a, text); bytes_of(b, text + strlen(text));
    need(strlen(text) < MOST_TEXT, "too long a string"); make_string(dst, text))
DO(new_guardian, make_guardian(dst))
DO(keep_guard, need(is_guardian(a), "no guardian"); need_a(OTHER, b); guard(a, b); words[dst] = NOTHING)
DO(next_guarded, need(is_guardian(a), "no guardian"); guarded(dst, a))
DO(memo_add, need_a(OTHER, a); memo_set(a, b); words[dst] = NOTHING)
DO(memo_find, need_a(OTHER, a); memo_get(dst, a))
DO(collect_all, collect(a, true); words[dst] = NOTHING)
DO(count_symbols, words[dst] = integer((int64_t)symbol_count))
DO(newline, putchar('\n'); words[dst] = NOTHING)
static int64_t argument;
DO(argument_or, words[dst] = argument != 0 ? integer(argument) : words[a])
/* What a place of work has; the rest of a list is in its place then, and its elements are one place further. */
static void print(slot at, unsigned depth) {
    static const char *const constants[] = { "()", "#f", "#t", "#nothing", "#unset" };
    char text[MOST_TEXT] = "...";
    word it = words[at];
    if (tag_of(it) == PAIR && depth < 10) {
        for (const char *before = "("; tag_of(words[at]) == PAIR; before = " ") {
            printf("%s", before);
            head_of(at + 1, at);
            print(at + 1, depth + 1);
            tail_of(at, at);
        }
        if (words[at] != NIL) printf(" . "), print(at, depth + 1);
        strcpy(text, ")");
    } else if (tag_of(it) == INTEGER) snprintf(text, sizeof text, "%" PRId64, integer_of(it));
    else if (tag_of(it) == STRING) bytes_of(at, text);
    else if (tag_of(it) == SYMBOL) strcpy(text, symbol_name(at));
    else if (tag_of(it) != PAIR) strcpy(text, is_special(it, CONSTANT) ? constants[number_in(it)] : "#procedure");
    printf("%s", text);
}
DO(display, print(to_print(a), 0); words[dst] = NOTHING)
static const struct primitive { const char *name; unsigned operands; void (*call)(slot dst, slot a, slot b); } primitives[] = {
    { "+", 2, add }, { "-", 2, subtract }, { "<", 2, is_less }, { "=", 2, is_equal }, { "cdr", 1, cdr }, { "cons", 2, cons },
    { "car", 1, car }, { "null?", 1, is_null }, { "pair?", 1, is_pair }, { "not", 1, is_not }, { "cadr", 1, cadr },
    { " last?", 1, is_last }, { "eq?", 2, is_eq }, { "*", 2, multiply }, { ">", 2, is_more }, { "quotient", 2, quotient },
    { "remainder", 2, rest_of }, { "symbol?", 1, is_symbol }, { "display", 1, display }, { "newline", 0, newline },
    { "string-append", 2, join }, { "number->string", 1, text_of_number }, { "string->symbol", 1, symbol_of_text },
    { "symbol->string", 1, text_of_symbol }, { "make-guardian", 0, new_guardian }, { "guard!", 2, keep_guard },
    { "guardian-next", 1, next_guarded }, { "memo-set!", 2, memo_add }, { "memo-ref", 1, memo_find },
    { "collect", 0, collect_all }, { "symbol-count", 0, count_symbols }, { "argument", 1, argument_or },
};
enum { CDR = 4, CAR = 6, IS_NULL = 7, CADR = 10, IS_LAST = 11, PRIMITIVES = sizeof primitives / sizeof *primitives };

/* ---- code: an operation and three places; or one, and a number. After a call comes the set of places that are used after it */
enum operation { CONST = PRIMITIVES, CELL, SET_CELL, MOVE, CAPTURED, MAKE_BOX, GET_BOX, SET_BOX, CLOSE, JUMP, JUMP_IF_NOT, CALL,
                 TAIL_CALL, RETURN };
static struct code { uint32_t *words; size_t count, room; unsigned parameters, size, captured; } *codes;
struct variable { const char *name; unsigned at; bool is_boxed; };
/* A procedure while code is made of it: its variables, and those of procedures around it that it captures. */
struct scope {
    struct scope *around;
    const char *self;
    struct variable own[MOST_OWN], captured[PLACES];
    unsigned own_count, captured_count, code;
};
static struct cell *cells;
static size_t code_count, code_room, cell_count, cell_room;
static size_t emit(struct scope *s, unsigned operation, unsigned a, unsigned b, unsigned c) {
    struct code *code = &codes[s->code];
    if (code->count == code->room) code->words = (uint32_t *)grown(code->words, &code->room, sizeof *code->words);
    if (code->count > 0xffff || b > 0xffff || code_count > 0x10000) fail("too much code", "");
    code->words[code->count] = operation | a << 8 | b << 16 | c << 24;
    return code->count++;
}
static void end_jump(struct scope *s, size_t jump) { codes[s->code].words[jump] |= (uint32_t)codes[s->code].count << 16; }
static unsigned place(struct scope *s, unsigned at) {
    if (at >= PLACES) fail("a procedure needs more than 15 places", "");
    if (at >= codes[s->code].size) codes[s->code].size = at + 1;
    return at;
}
static unsigned new_code(unsigned parameters) {
    if (code_count == code_room) codes = (struct code *)grown(codes, &code_room, sizeof *codes);
    codes[code_count] = (struct code){ .parameters = parameters };
    return (unsigned)code_count++;
}
static unsigned new_cell(const char *called, word now) {
    if (cell_count == cell_room) cells = (struct cell *)grown(cells, &cell_room, sizeof *cells);
    cells[cell_count] = (struct cell){ now, 0, strcpy((char *)grown(NULL, NULL, strlen(called) + 1), called) };
    return (unsigned)cell_count++;
}
static unsigned cell_called(const char *called) {
    for (unsigned i = 0; i < cell_count; i++)
        if (strcmp(cells[i].name, called) == 0) return i;
    return new_cell(called, UNSET);
}
static void emit_word(struct scope *s, unsigned dst, word it) { emit(s, CONST, dst, new_cell("", it), 0); }
/* A procedure's own variable, or null; it finds itself in its place 0. */
static const struct variable *own_called(const struct scope *s, const char *called) {
    static const struct variable itself = { "", 0, false };
    for (unsigned i = s->own_count; i-- > 0;)
        if (strcmp(s->own[i].name, called) == 0) return &s->own[i];
    return s->self != NULL && strcmp(s->self, called) == 0 ? &itself : NULL;
}
enum where { NOWHERE, HERE, OUTSIDE }; /* a variable is; what a procedure has from around it is captured */
static enum where find(struct scope *s, const char *called, struct variable *found) {
    const struct variable *own = own_called(s, called);
    if (own != NULL) return *found = *own, HERE;
    for (unsigned i = 0; i < s->captured_count; i++)
        if (strcmp(s->captured[i].name, called) == 0) return *found = s->captured[i], OUTSIDE;
    if (s->around == NULL || find(s->around, called, found) == NOWHERE) return NOWHERE;
    if (s->captured_count == PLACES - 2) fail("a procedure captures too much", called);
    *found = (struct variable){ called, s->captured_count, found->is_boxed };
    return s->captured[s->captured_count++] = *found, OUTSIDE;
}
/* The places that a form's code may read, a bit for each: what is captured is read from place 0. */
static unsigned read_by(const struct scope *s, form it) {
    unsigned found = 0;
    for (; it->is == IS_PAIR; it = it->tail) found |= read_by(s, it->head);
    if (it->is != IS_NAME) return found;
    const struct variable *own = own_called(s, it->text);
    if (own != NULL) return 1u << own->at;
    for (s = s->around; s != NULL; s = s->around)
        if (own_called(s, it->text) != NULL) return 1;
    return found;
}
static void add_own(struct scope *s, const char *called, unsigned at, bool is_boxed) {
    if (s->own_count == MOST_OWN) fail("a procedure has too many variables", called);
    s->own[s->own_count++] = (struct variable){ called, place(s, at), is_boxed };
    if (is_boxed) emit(s, MAKE_BOX, at, at, 0);
}
/* Whether a form has a `set!` of the name (1), and the name within a procedure (2): then the variable is in a box. */
static unsigned uses(form it, const char *called, bool is_inside) {
    if (is_name(it, called)) return is_inside ? 2 : 0;
    if (begins(it, "lambda") || begins(it, "letrec")) is_inside = true;
    if (begins(it, "let") || begins(it, "define")) is_inside |= (part(it, 1)->is == IS_NAME) == begins(it, "let");
    unsigned found = begins(it, "set!") && is_name(part(it, 1), called);
    for (; it->is == IS_PAIR; it = it->tail) found |= uses(it->head, called, is_inside);
    return found;
}

/* ---- forms, each for the place of its result; what is used after it is in the `live` places; at a procedure's end it returns */
static void gen(struct scope *s, form it, unsigned dst, unsigned live, bool is_last);
static void gen_body(struct scope *s, form body, unsigned dst, unsigned live, bool is_last);
/* The primitive that a form calls, or PRIMITIVES. */
static unsigned primitive_of(struct scope *s, form it) {
    if (it->is != IS_PAIR || it->head->is != IS_NAME || read_by(s, it->head) != 0) return PRIMITIVES;
    const word now = cells[cell_called(it->head->text)].now;
    return is_special(now, PRIMITIVE) ? number_in(now) : PRIMITIVES;
}
static bool is_call(struct scope *s, form it) {
    return it->is == IS_PAIR && !begins(it, "quote") && !begins(it, "lambda") && primitive_of(s, it) == PRIMITIVES;
}
/* A place besides those that are used: for a call, which leaves its value where it was, above them all; else the first. */
static unsigned place_for(struct scope *s, bool is_left, unsigned used) {
    return place(s, !is_left ? (unsigned)__builtin_ctz(~used) : used == 0 ? 0 : 32 - (unsigned)__builtin_clz(used));
}
/* Where a form's value is already, or PLACES. */
static unsigned place_of(const struct scope *s, form it) {
    const struct variable *own = it->is == IS_NAME ? own_called(s, it->text) : NULL;
    return own != NULL && !own->is_boxed ? own->at : PLACES;
}
static unsigned operand(struct scope *s, form it, unsigned live) {
    unsigned at = place_of(s, it);
    if (at == PLACES) gen(s, it, at = place_for(s, is_call(s, it), live), live, false);
    return at;
}
static void gen_lambda(struct scope *s, form it, const char *self, unsigned dst, unsigned live) {
    struct scope inner = { .around = s, .self = self, .code = new_code(length_of(part(it, 1))) };
    struct variable found;
    unsigned from[PLACES];
    live |= read_by(s, it);
    for (form one = part(it, 1); one->is == IS_PAIR; one = one->tail)
        add_own(&inner, one->head->text, inner.own_count + 1, uses(after(it, 2), one->head->text, false) == 3);
    gen_body(&inner, after(it, 2), 0, 0, true);
    const unsigned count = codes[inner.code].captured = inner.captured_count;
    if (count == 0) emit_word(s, dst, SPECIAL_OF(CODE, inner.code));
    for (unsigned i = 0; i < count; i++) {
        bool is_here = find(s, inner.captured[i].name, &found) == HERE;
        from[i] = is_here ? found.at : place_for(s, false, live);
        live |= 1u << from[i];
        if (!is_here) emit(s, CAPTURED, from[i], found.at, 0);
    }
    if (count > 0) emit(s, CLOSE, dst, inner.code, 0);
    for (unsigned i = 0; i < count; i++) emit(s, from[i], 0, 0, 0);
}
/* The variables are there while their values are made; one that a value before its own has is in a box too. */
static void gen_letrec(struct scope *s, form bindings, form body, unsigned dst, unsigned live, bool is_last) {
    unsigned first = s->own_count, one = first, used = live | read_by(s, bindings) | read_by(s, body);
    for (form it = bindings; it->is == IS_PAIR; it = it->tail) {
        const char *called = part(it->head, 0)->text;
        bool is_boxed = (uses(bindings, called, true) | uses(body, called, true)) & 1;
        for (form one = bindings; one != it->tail; one = one->tail)
            if (one != it || !begins(part(it->head, 1), "lambda")) is_boxed |= uses(part(one->head, 1), called, true) != 0;
        const unsigned at = place_for(s, false, used);
        used |= 1u << at;
        emit_word(s, at, UNSET);
        add_own(s, called, at, is_boxed);
    }
    for (form it = bindings; it->is == IS_PAIR; it = it->tail, one++) {
        const struct variable own = s->own[one];
        unsigned to = own.is_boxed ? place_for(s, is_call(s, part(it->head, 1)), used) : own.at;
        if (begins(part(it->head, 1), "lambda")) gen_lambda(s, part(it->head, 1), own.is_boxed ? NULL : own.name, to, used);
        else gen(s, part(it->head, 1), to, used, false);
        if (own.is_boxed) emit(s, SET_BOX, own.at, to, 0);
    }
    gen_body(s, body, dst, live, is_last);
    s->own_count = first;
}
static form binding_of(form definition) {
    form target = part(definition, 1);
    if (target->is == IS_NAME) return definition->tail;
    return list(target->head, pair(name("lambda"), pair(target->tail, after(definition, 2))), NULL);
}
static void gen_body(struct scope *s, form body, unsigned dst, unsigned live, bool is_last) {
    struct datum bindings = { .tail = atom(IS_NIL) }, *last = &bindings;
    for (; s->around != NULL && begins(part(body, 0), "define"); body = body->tail) {
        struct datum *next = pair(binding_of(body->head), atom(IS_NIL));
        last->tail = next;
        last = next;
    }
    if (last != &bindings) return gen_letrec(s, bindings.tail, body, dst, live, is_last);
    for (; body->tail->is == IS_PAIR; body = body->tail) operand(s, body->head, live | read_by(s, body->tail));
    gen(s, body->head, dst, live, is_last);
}
static void gen_let(struct scope *s, form it, unsigned dst, unsigned live, bool is_last) {
    unsigned outer = s->own_count, at[PLACES + 1], count = 0, made = live;
    const form body = after(it, 2);
    for (form one = part(it, 1); one->is == IS_PAIR; one = one->tail) {
        const unsigned used = made | read_by(s, one->tail) | read_by(s, body);
        const bool is_left = is_call(s, part(one->head, 1));
        at[count] = is_left || used >> dst & 1 ? place_for(s, is_left, used) : dst;
        gen(s, part(one->head, 1), at[count], used, false);
        made |= 1u << at[count++];
    }
    count = 0;
    for (form one = part(it, 1); one->is == IS_PAIR; one = one->tail)
        add_own(s, part(one->head, 0)->text, at[count++], uses(body, part(one->head, 0)->text, false) == 3);
    gen_body(s, body, dst, live, is_last);
    s->own_count = outer;
}
/* What is called and then its arguments, from `at` on; at the end of a procedure they take its own places. First is made what
 * calls leave, then the rest from the last on, as variables mostly move up; to a place that is still read it is moved last. */
static void gen_call(struct scope *s, form it, unsigned dst, unsigned live, bool is_last) {
    const unsigned count = length_of(it), lowest = place_for(s, true, live), at = is_last ? 0 : dst > lowest ? dst : lowest;
    unsigned from[PLACES], made = 0, used = live;
    place(s, at + count - 1);
    for (unsigned turn = 0; turn < 2 * count; turn++) {
        const unsigned i = turn < count ? turn : 2 * count - 1 - turn;
        if (is_call(s, part(it, i)) != (turn < count)) continue;
        unsigned later = 0;
        made |= 1u << i;
        for (unsigned other = 0; other < count; other++)
            if (!(made >> other & 1)) later |= read_by(s, part(it, other));
        const bool is_taken = later >> (at + i) & 1 && place_of(s, part(it, i)) != at + i;
        from[i] = is_taken ? place_for(s, true, used | later | ((1u << count) - 1) << at) : at + i;
        gen(s, part(it, i), from[i], used | later, false);
        used |= 1u << from[i];
    }
    for (unsigned i = 0; i < count; i++)
        if (from[i] != at + i) emit(s, MOVE, at + i, from[i], 0);
    emit(s, is_last ? TAIL_CALL : CALL, at, count - 1, 0), emit(s, live, 0, 0, 0);
    if (!is_last && dst != at) emit(s, MOVE, dst, at, 0);
}
static void gen_primitive(struct scope *s, form it, unsigned dst, unsigned live) {
    unsigned number = primitive_of(s, it);
    if ((number == CAR || number == IS_NULL) && primitive_of(s, part(it, 1)) == CDR) number += CADR - CAR, it = part(it, 1);
    const unsigned count = length_of(it) - 1;
    if (count != primitives[number].operands) fail("a wrong number of operands", it->head->text);
    unsigned a = count > 0 ? operand(s, part(it, 1), live | read_by(s, after(it, 2))) : place_for(s, true, live);
    unsigned b = count > 1 ? operand(s, part(it, 2), live | 1u << a) : a;
    emit(s, number, dst, a, b);
}
static void gen_if(struct scope *s, form it, unsigned dst, unsigned live, bool is_last) {
    unsigned test = operand(s, part(it, 1), live | read_by(s, after(it, 2)));
    size_t to_else = emit(s, JUMP_IF_NOT, test, 0, 0), to_end = 0;
    gen(s, part(it, 2), dst, live, is_last);
    if (!is_last) to_end = emit(s, JUMP, 0, 0, 0);
    end_jump(s, to_else);
    gen(s, length_of(it) > 3 ? part(it, 3) : atom(IS_FALSE), dst, live, is_last);
    if (!is_last) end_jump(s, to_end);
}
static void gen_name(struct scope *s, const char *called, unsigned dst) {
    struct variable found;
    enum where where = find(s, called, &found);
    if (where == NOWHERE) emit(s, CELL, dst, cell_called(called), 0);
    else if (where == OUTSIDE) emit(s, CAPTURED, dst, found.at, 0);
    else if (!found.is_boxed && found.at != dst) emit(s, MOVE, dst, found.at, 0);
    if (where != NOWHERE && found.is_boxed) emit(s, GET_BOX, dst, where == HERE ? found.at : dst, where == OUTSIDE);
}
static void gen_set(struct scope *s, form it, unsigned dst, unsigned live) {
    struct variable found;
    bool is_definition = begins(it, "define");
    if (is_definition && s->around != NULL) fail("a definition is not at the beginning of a body", "");
    form binding = is_definition ? binding_of(it) : it->tail;
    const char *called = part(binding, 0)->text;
    enum where where = is_definition ? NOWHERE : find(s, called, &found);
    unsigned value = operand(s, part(binding, 1), live |= read_by(s, part(binding, 0)));
    if (where == NOWHERE) emit(s, SET_CELL, value, cell_called(called), 0);
    unsigned to = where == HERE ? found.at : place_for(s, false, live | 1u << value);
    if (where == OUTSIDE) emit(s, CAPTURED, to, found.at, 0);
    if (where != NOWHERE) emit(s, found.is_boxed ? SET_BOX : MOVE, to, value, where == OUTSIDE);
    emit_word(s, dst, NOTHING);
}
static form column(form bindings, unsigned number) {
    if (bindings->is != IS_PAIR) return bindings;
    return pair(part(bindings->head, number), column(bindings->tail, number));
}
/* What a form is short for; null where it is itself. */
static form unfolded(form it) {
    form rest = it->is == IS_PAIR ? after(it, 2) : it;
    if (begins(it, "cond")) {
        if (length_of(it) == 1) return atom(IS_FALSE);
        form body = pair(name("begin"), part(it, 1)->tail);
        if (is_name(part(it, 1)->head, "else")) return body;
        return pair(name("if"), list(part(it, 1)->head, body, pair(name("cond"), rest)));
    }
    if (begins(it, "and") || begins(it, "or")) {
        if (length_of(it) < 3) return length_of(it) == 2 ? part(it, 1) : atom(begins(it, "and") ? IS_TRUE : IS_FALSE);
        if (begins(it, "and")) return pair(name("if"), list(part(it, 1), pair(name("and"), rest), atom(IS_FALSE)));
        form either = pair(name("if"), list(name(" it"), name(" it"), pair(name("or"), rest)));
        return list(name("let"), list(list(name(" it"), part(it, 1), NULL), NULL, NULL), either);
    }
    if (begins(it, "list")) {
        if (length_of(it) == 1) return atom(IS_NIL);
        return list(name("cons"), part(it, 1), pair(name("list"), rest));
    }
    if (!begins(it, "let") || part(it, 1)->is != IS_NAME) return NULL;
    form loop = pair(name("lambda"), pair(column(part(it, 2), 0), after(it, 3)));
    return pair(list(name("letrec"), list(list(part(it, 1), loop, NULL), NULL, NULL), part(it, 1)), column(part(it, 2), 1));
}
/* Makes an object of what was read, in a place, with the places behind it to work in. */
static void build(slot dst, form it) {
    if (dst + 1 >= PLACES) fail("a constant is too deep", "");
    if (it->is == IS_STRING) make_string(dst, it->text);
    else if (it->is == IS_NAME) make_symbol(dst, it->text);
    else words[dst] = it->is == IS_INTEGER ? integer(it->integer) : it->is == IS_TRUE ? TRUE : it->is == IS_FALSE ? FALSE : NIL;
    for (unsigned left = length_of(it); left > 0; left--) {
        build(dst + 1, part(it, left - 1));
        make_pair(dst, dst + 1, dst);
    }
}
static void gen(struct scope *s, form it, unsigned dst, unsigned live, bool is_last) {
    form known = unfolded(it);
    place(s, dst);
    if (known != NULL) return gen(s, known, dst, live, is_last);
    if (begins(it, "if")) return gen_if(s, it, dst, live, is_last);
    if (begins(it, "begin")) return gen_body(s, it->tail, dst, live, is_last);
    if (begins(it, "letrec")) return gen_letrec(s, part(it, 1), after(it, 2), dst, live, is_last);
    if (begins(it, "let")) return gen_let(s, it, dst, live, is_last);
    if (begins(it, "lambda")) gen_lambda(s, it, NULL, dst, live);
    else if (begins(it, "set!") || begins(it, "define")) gen_set(s, it, dst, live);
    else if (is_call(s, it)) return gen_call(s, it, dst, live, is_last);
    else if (it->is == IS_NAME) gen_name(s, it->text, dst);
    else if (it->is == IS_PAIR && !begins(it, "quote")) gen_primitive(s, it, dst, live);
    else {
        build(0, it->is == IS_PAIR ? part(it, 1) : it);
        emit_word(s, dst, NIL);
        cell_set(&cells[cell_count - 1], 0);
    }
    if (is_last) emit(s, RETURN, 0, 0, 0);
}

/* ---- what does it */
static struct frame { const struct code *code; const uint32_t *next; slot base; uint32_t context; } *frames;
static size_t frame_count, frame_room;
/* What frames of this context and those after it have no use for any more becomes immediate. */
static void drop_dead(uint32_t first) {
    for (size_t i = frame_count; i > 0 && frames[i - 1].context >= first; i--) {
        const uint32_t *call = frames[i - 1].next - 2;
        for (unsigned dead = ~call[1] & ((1u << (call[0] >> 8 & 0xff)) - 1); dead != 0; dead &= dead - 1)
            words[frames[i - 1].base + (unsigned)__builtin_ctz(dead)] = NIL;
    }
}
static inline const struct code *code_called(slot at, unsigned count) {
    word it = words[at];
    if (tag_of(it) != PROCEDURE && !is_special(it, CODE)) fail("what is called is no procedure", "");
    const struct code *code = &codes[tag_of(it) == PROCEDURE ? code_of(at) : number_in(it)];
    if (code->parameters != count) fail("a wrong number of arguments", "");
    return code;
}
static inline bool call_primitive(slot at, unsigned count) {
    if (!is_special(words[at], PRIMITIVE)) return false;
    const struct primitive *it = &primitives[number_in(words[at])];
    if (it->operands != count) fail("a wrong number of operands", it->name);
    return it->call(at, at + 1, at + 2), true;
}
#define INLINE(number, called) case number: called(base + a, base + b, base + c); break
static void run(const struct code *code) {
    const uint32_t *next = code->words;
    slot base = 0;
    for (;;) {
        const uint32_t it = *next++;
        const unsigned a = it >> 8 & 0xff, b = it >> 16 & 0xff, c = it >> 24, number = it >> 16;
        switch (it & 0xff) {
            INLINE(0, add); INLINE(1, subtract); INLINE(2, is_less); INLINE(3, is_equal); INLINE(4, cdr); INLINE(5, cons);
            INLINE(6, car); INLINE(7, is_null); INLINE(8, is_pair); INLINE(9, is_not); INLINE(10, cadr); INLINE(11, is_last);
        default: primitives[it & 0xff].call(base + a, base + b, base + c); break;
        case CELL: if (cells[number].now == UNSET) fail("a variable has no value", cells[number].name); /* fall through */
        case CONST: cell_get(base + a, &cells[number]); break;
        case SET_CELL: cell_set(&cells[number], base + a); break;
        case MOVE: copy(base + a, base + b); break;
        case CAPTURED: captured_of(base + a, base, b); break;
        case MAKE_BOX: make_box(base + a, base + b); break;
        case GET_BOX: box_get(base + a, base + b, c); break;
        case SET_BOX: box_set(base + a, base + b, c); break;
        case CLOSE: make_procedure(base + a, number, base, next, codes[number].captured), next += codes[number].captured; break;
        case JUMP_IF_NOT: if (words[base + a] != FALSE) break; /* fall through */
        case JUMP: next = code->words + number; break;
        case CALL:
            next++;
            if (call_primitive(base + a, b)) break;
            if (frame_count == frame_room) frames = (struct frame *)grown(frames, &frame_room, sizeof *frames);
            frames[frame_count++] = (struct frame){ code, next, base, context };
            code = code_called(base + a, b), base = enter(base + a, code->size, b + 1), next = code->words;
            break;
        case TAIL_CALL:
            if (!call_primitive(base, b)) {
                code = code_called(base, b), base = enter(base, code->size, b + 1), next = code->words;
                break;
            } /* fall through */
        case RETURN:
            if (frame_count == 0) return;
            const struct frame *frame = &frames[--frame_count];
            if (frame->context != context) leave(frame->base + (frame->next[-2] >> 8 & 0xff), base);
            code = frame->code, next = frame->next, base = frame->base;
        }
    }
}
int main(int count, char **given) {
    for (int i = 1; i < count; i++) {
        uint32_t *limit = strcmp(given[i], "--cells") == 0 ? &of_host.cells : strcmp(given[i], "--blocks") == 0 ? &of_host.blocks
                          : strcmp(given[i], "--contexts") == 0 ? &of_host.contexts : NULL;
        if (limit != NULL && i + 1 < count) *limit = (uint32_t)strtoul(given[++i], NULL, 10);
        else if (strcmp(given[i], "--stress") == 0) of_host.is_stressed = true;
        else if (input == NULL) input = fopen(given[i], "r");
        else argument = strtoll(given[i], NULL, 10);
    }
    if (input == NULL) fail("usage: scheme [--cells N] [--blocks N] [--contexts N] [--stress] FILE [NUMBER]", "");
    memory_open();
    for (unsigned i = 0; i < PRIMITIVES; i++) new_cell(primitives[i].name, SPECIAL_OF(PRIMITIVE, i));
    for (form it; (it = read_form()) != NULL;) {
        struct scope whole = { .code = new_code(0) };
        gen(&whole, it, 0, 1, true);
        run(&codes[whole.code]);
        while (taken_count > 0) free(taken[--taken_count]);
    }
    memory_close();
    return 0;
}
