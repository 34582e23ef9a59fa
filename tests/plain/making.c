/* The list of a text, and its items: word by word as they stand, and twice, since whether a line is refused is known before the first byte is written. */
#include "plain.h"

#include <string.h>

/* A word of one to eight characters as a number, the first character lowest. */
#define SPELLED(a, b, c, d, e, f, g, h, ...) \
    ((uint64_t)(a) | (uint64_t)(b) << 8 | (uint64_t)(c) << 16 | (uint64_t)(d) << 24 | (uint64_t)(e) << 32 | (uint64_t)(f) << 40 | \
     (uint64_t)(g) << 48 | (uint64_t)(h) << 56)
#define WORD(...) SPELLED(__VA_ARGS__, 0, 0, 0, 0, 0, 0, 0, 0)

enum { MOST_BYTES = 32768, MOST_FIELDS = 256, NO_NUMBER = 1000, NO_LIMIT = 0 };

typedef struct {
    const uint8_t *end, *line; /* where the text ends, and where the line begins */
    const uint8_t *word;       /* the word in hand; where there is none, where the line ends */
    size_t length;             /* of the word; 0 where there is none */
    uint64_t name;             /* the word, spelled as above; 0 where there is none, or it has over eight characters, or one that no word has */

    uint64_t names[MOST_FIELDS]; /* of the fields */
    uint8_t starts[MOST_FIELDS], widths[MOST_FIELDS];
    uint32_t fields;

    uint32_t limit;    /* how many words a store may reach */
    uint8_t modes[4];  /* as the instructions above set them */
    int takes_outside; /* whether an instruction above does */

    uint8_t *list, *items; /* NULL while the text is judged */
    size_t list_bytes, items_bytes;
} maker;

/* ---- words */

static int is_blank(uint8_t c) { return c == ' ' || c == '\t' || c == '\r'; }
static int ends_word(uint8_t c) { return c <= ' ' ? is_blank(c) || c == '\n' : c == ';'; }

static void next(maker *m)
{
    const uint8_t *at = m->word + m->length, *const end = m->end;
    uint64_t name = 0;
    unsigned spelled = 0, spoiled = 0;
    while (at != end && is_blank(*at))
        at++;
    m->word = at;
    for (; at != end && !ends_word(*at); at++, spelled += 8) {
        if (spelled < 64)
            name |= (uint64_t)*at << spelled;
        else
            spoiled = 1;
        spoiled |= *at < 33 || *at > 126;
    }
    m->length = (size_t)(at - m->word);
    m->name = spoiled ? 0 : name;
}

/* The number with which the word in hand is refused where another has to stand: where there is none, the line ends too early. */
static uint32_t refused(const maker *m, uint32_t number) { return m->length == 0 ? STARAN_REFUSED_TEXT_TOO_EARLY : number; }

static uint32_t line_ends(const maker *m) { return m->length == 0 ? STARAN_DONE : STARAN_REFUSED_TEXT_TOO_MUCH; }

static uint32_t next_is(maker *m, uint64_t name)
{
    next(m);
    return m->name == name ? STARAN_DONE : refused(m, STARAN_REFUSED_TEXT_WORD);
}

/* The word in hand as a number of one to three digits. */
static uint32_t number(const maker *m)
{
    uint32_t value = 0;
    if (m->length < 1 || m->length > 3)
        return NO_NUMBER;
    for (size_t k = 0; k < m->length; k++) {
        if (m->word[k] < '0' || m->word[k] > '9')
            return NO_NUMBER;
        value = 10 * value + m->word[k] - '0';
    }
    return value;
}

static uint32_t next_byte(maker *m, uint8_t *byte)
{
    next(m);
    const uint32_t value = number(m);
    *byte = (uint8_t)value;
    return value <= 255 ? STARAN_DONE : refused(m, STARAN_REFUSED_TEXT_NUMBER);
}

/* ---- instructions: each part takes its words and puts its bytes. Behind the parts that may be absent the word in hand is the one that is left */

static uint32_t place(maker *m, uint8_t *i)
{
    uint32_t no = STARAN_DONE;
    i[2] = 1;
    switch (m->name) {
    case WORD('s', 'l', 'i', 'c', 'e'):
        break;
    case WORD('w', 'o', 'r', 'd'):
        i[3] = 255;
        break;
    case WORD('m', 'o', 'd', 'e'):
        no = next_byte(m, i + 3);
        if (m->name == 'a' || m->name == 'b') {
            i[2] = m->name == 'a' ? 2 : 3;
            i[3] = 0;
            no = STARAN_DONE;
        }
        if (no == STARAN_DONE)
            no = next_is(m, WORD('a', 'd', 'd', 'r', 'e', 's', 's'));
        break;
    default:
        return refused(m, STARAN_REFUSED_TEXT_SOURCE);
    }
    return no != STARAN_DONE ? no : next_byte(m, i + 4);
}

static uint8_t register_named(uint64_t name)
{
    switch (name) {
    case 'm':
        return 1;
    case 'x':
        return 2;
    case 'y':
        return 3;
    case WORD('o', 'u', 't', 's', 'i', 'd', 'e'):
        return 4;
    default:
        return 0;
    }
}

static uint32_t flip(maker *m, uint8_t *i)
{
    uint32_t no = STARAN_DONE;
    next(m);
    if (m->name == WORD('f', 'l', 'i', 'p')) {
        no = next_byte(m, i + 5);
        if (no == STARAN_DONE)
            next(m);
    }
    return no;
}

/* The exponent of the power of 2 that is the word in hand, without zeros in front; -1 where it is none up to 256. */
static int power(const maker *m)
{
    const uint32_t value = number(m);
    if (value > 256 || (value & (value - 1)) != 0 || m->word[0] == '0')
        return -1;
    return __builtin_ctz(value);
}

static uint32_t moves(maker *m, uint8_t *i)
{
    uint32_t no = flip(m, i);
    if (no != STARAN_DONE || m->name != WORD('s', 'h', 'i', 'f', 't'))
        return no;
    next(m);
    const int by = power(m);
    if (by < 0 || by > 7)
        return refused(m, STARAN_REFUSED_TEXT_SHIFT);
    no = next_is(m, WORD('m', 'o', 'd'));
    if (no != STARAN_DONE)
        return no;
    next(m);
    const int group = power(m);
    if (group <= by)
        return refused(m, STARAN_REFUSED_TEXT_SHIFT);
    i[6] = (uint8_t)(16 * group + by);
    next(m);
    return STARAN_DONE;
}

static uint32_t source_and_moves(maker *m, uint8_t *i)
{
    next(m);
    i[1] = register_named(m->name);
    const uint32_t no = i[1] != 0 ? STARAN_DONE : place(m, i);
    return no != STARAN_DONE ? no : moves(m, i);
}

static uint32_t store(maker *m, uint8_t *i)
{
    next(m);
    uint32_t no = place(m, i);
    if (no == STARAN_DONE)
        no = next_is(m, WORD('f', 'r', 'o', 'm'));
    if (no != STARAN_DONE)
        return no;
    next(m);
    i[1] = register_named(m->name);
    return i[1] == 0 ? refused(m, STARAN_REFUSED_TEXT_SOURCE) : flip(m, i);
}

static int choice_named(uint64_t name)
{
    switch (name) {
    case 'x':
        return 0;
    case 'y':
        return 1;
    case WORD('b', 'o', 't', 'h'):
        return 2;
    case WORD('x', '-', 'i', 'f', '-', 'y'):
        return 3;
    case WORD('x', '-', 'i', 'f', '-', 'y', '+', 'y'):
        return 4;
    default:
        return -1;
    }
}

static uint32_t function_named(const maker *m)
{
    switch (m->name) {
    case WORD('z', 'e', 'r', 'o'):
        return 0;
    case WORD('n', 'o', 'r'):
        return 1;
    case WORD('n', 'o', 't'):
        return 3;
    case WORD('c', 'l', 'e', 'a', 'r'):
        return 4;
    case WORD('l', 'o', 'a', 'd', 'n', 'o', 't'):
        return 5;
    case WORD('x', 'o', 'r'):
        return 6;
    case WORD('n', 'a', 'n', 'd'):
        return 7;
    case WORD('a', 'n', 'd'):
        return 8;
    case WORD('x', 'n', 'o', 'r'):
        return 9;
    case WORD('l', 'o', 'a', 'd'):
        return 10;
    case WORD('k', 'e', 'e', 'p'):
        return 12;
    case WORD('o', 'r', 'n', 'o', 't'):
        return 13;
    case WORD('o', 'r'):
        return 14;
    case WORD('o', 'n', 'e'):
        return 15;
    default:
        return number(m);
    }
}

static uint32_t logic(maker *m, uint8_t *i)
{
    next(m);
    const int choice = choice_named(m->name);
    if (choice < 0)
        return refused(m, STARAN_REFUSED_TEXT_CHOICE);
    next(m);
    const uint32_t function = function_named(m);
    if (function > 15)
        return refused(m, STARAN_REFUSED_TEXT_FUNCTION);
    i[7] = (uint8_t)(16 * choice + (int)function);
    return source_and_moves(m, i);
}

static uint32_t set_mode(maker *m, uint8_t *i)
{
    next(m);
    if (m->name != 'a' && m->name != 'b')
        return refused(m, STARAN_REFUSED_TEXT_SOURCE);
    i[2] = m->name == 'a' ? 2 : 3;
    const uint32_t no = next_byte(m, i + 3);
    if (no == STARAN_DONE)
        next(m);
    return no;
}

static int digit(uint8_t c) { return c >= '0' && c <= '9' ? c - '0' : c >= 'A' && c <= 'F' ? c - 'A' + 10 : c >= 'a' && c <= 'f' ? c - 'a' + 10 : -1; }

static uint32_t eight_bytes(maker *m, uint8_t *i)
{
    for (int b = 0; b < 8; b++) {
        next(m);
        if (m->length != 2 || digit(m->word[0]) < 0 || digit(m->word[1]) < 0)
            return refused(m, STARAN_REFUSED_TEXT_BYTE);
        i[b] = (uint8_t)(16 * digit(m->word[0]) + digit(m->word[1]));
    }
    next(m);
    return STARAN_DONE;
}

/* Does a store reach more words than it may, or nobody knows how many? */
static int reaches_over(const maker *m, const uint8_t *i)
{
    uint8_t mode = i[3];
    if (m->limit == NO_LIMIT || (i[0] != 2 && i[0] != 3))
        return 0;
    if (i[2] == 2 || i[2] == 3) {
        if (m->modes[2 * (i[2] - 2)] == 0)
            return 1;
        mode = m->modes[2 * (i[2] - 2) + 1];
    }
    return 256u >> __builtin_popcount(mode) > m->limit;
}

/* The instruction whose first word is in hand, of this kind; 7 stands for `bytes`. */
static uint32_t instruction(maker *m, uint8_t kind)
{
    uint8_t i[8] = {kind};
    uint32_t no = STARAN_DONE;
    switch (kind) {
    case 0:
        no = logic(m, i);
        break;
    case 1:
    case 4:
        no = source_and_moves(m, i);
        break;
    case 2:
    case 3:
        no = store(m, i);
        break;
    case 5:
        next(m);
        break;
    case 6:
        no = set_mode(m, i);
        break;
    default:
        no = eight_bytes(m, i);
    }
    if (no == STARAN_DONE)
        no = line_ends(m);
    if (no != STARAN_DONE)
        return no;
    if (m->list != NULL)
        memcpy(m->list + m->list_bytes, i, 8);
    else if (reaches_over(m, i))
        return STARAN_REFUSED_TEXT_REACH;
    else if (i[0] == 6 && (i[2] == 2 || i[2] == 3)) {
        m->modes[2 * (i[2] - 2)] = 1;
        m->modes[2 * (i[2] - 2) + 1] = i[3];
    }
    m->takes_outside |= i[1] == 4;
    m->list_bytes += 8;
    return STARAN_DONE;
}

/* ---- statements */

static uint32_t field_named(const maker *m)
{
    uint32_t k = 0;
    while (k < m->fields && m->names[k] != m->name)
        k++;
    return k;
}

static uint32_t field(maker *m)
{
    uint8_t start;
    next(m);
    if (m->name == 0)
        return refused(m, STARAN_REFUSED_TEXT_FIELD_NAME);
    if (field_named(m) < m->fields)
        return STARAN_REFUSED_TEXT_FIELD_TWICE;
    if (m->fields == MOST_FIELDS)
        return STARAN_REFUSED_TEXT_FIELDS_TOO_MANY;
    const uint64_t name = m->name;
    const uint32_t no = next_byte(m, &start);
    if (no != STARAN_DONE)
        return no;
    next(m);
    const uint32_t width = number(m);
    if (width < 1 || width > 64)
        return refused(m, STARAN_REFUSED_WIDTH);
    if (start + width > 256)
        return STARAN_REFUSED_FIELD_BEYOND;
    m->names[m->fields] = name;
    m->starts[m->fields] = start;
    m->widths[m->fields++] = (uint8_t)width;
    next(m);
    return line_ends(m);
}

static uint32_t next_field(maker *m, uint32_t *f)
{
    next(m);
    *f = field_named(m);
    return *f < m->fields ? STARAN_DONE : refused(m, STARAN_REFUSED_TEXT_FIELD_UNKNOWN);
}

static uint32_t next_field_as_wide(maker *m, uint32_t a, uint32_t *f)
{
    const uint32_t no = next_field(m, f);
    return no != STARAN_DONE ? no : m->widths[*f] == m->widths[a] ? STARAN_DONE : STARAN_REFUSED_TEXT_FIELD_WIDTH;
}

static int crosses(uint32_t s, uint32_t a, uint32_t n) { return s != a && s < a + n && a < s + n; }

static uint32_t sum(maker *m, int difference)
{
    uint32_t a, b, s, no = next_field(m, &a), built[STARAN_LIST_NUMBERS];
    if (no == STARAN_DONE)
        no = next_field_as_wide(m, a, &b);
    if (no == STARAN_DONE)
        no = next_is(m, WORD('i', 'n', 't', 'o'));
    if (no == STARAN_DONE)
        no = next_field_as_wide(m, a, &s);
    if (no != STARAN_DONE)
        return no;
    const uint32_t n = m->widths[a];
    if (crosses(m->starts[s], m->starts[a], n) || crosses(m->starts[s], m->starts[b], n))
        return STARAN_REFUSED_FIELDS_CROSS;
    next(m);
    no = line_ends(m);
    if (no != STARAN_DONE)
        return no;
    if (m->limit != NO_LIMIT && m->limit < 256)
        return STARAN_REFUSED_TEXT_REACH;
    if (m->list != NULL)
        (difference ? staran_difference_list : staran_sum_list)(m->starts[a], m->starts[b], m->starts[s], n, m->list + m->list_bytes, MOST_BYTES, built);
    m->list_bytes += difference ? STARAN_DIFFERENCE_LIST_BYTES(n) : STARAN_SUM_LIST_BYTES(n);
    return STARAN_DONE;
}

/* The word in hand as a number below 2^64, of one to twenty digits. Answers whether it is one. */
static int value_of(const maker *m, uint64_t *value)
{
    *value = 0;
    if (m->length < 1 || m->length > 20)
        return 0;
    for (size_t k = 0; k < m->length; k++) {
        const uint64_t d = (uint64_t)m->word[k] - '0';
        if (d > 9 || *value > (UINT64_MAX - d) / 10)
            return 0;
        *value = 10 * *value + d;
    }
    return 1;
}

static uint32_t search(maker *m, int less)
{
    uint64_t value;
    uint32_t a, no = next_field(m, &a), built[STARAN_LIST_AND_ITEMS_NUMBERS];
    if (no != STARAN_DONE)
        return no;
    const uint32_t n = m->widths[a];
    next(m);
    if (!value_of(m, &value))
        return refused(m, STARAN_REFUSED_TEXT_VALUE);
    if (n < 64 && value >> n != 0)
        return STARAN_REFUSED_NUMBER_TOO_LARGE;
    next(m);
    no = line_ends(m);
    if (no != STARAN_DONE)
        return no;
    if (m->list != NULL)
        (less ? staran_less_list : staran_equal_list)(m->starts[a], n, value, m->list + m->list_bytes, MOST_BYTES, m->items + m->items_bytes, MOST_BYTES, built);
    else if (m->takes_outside)
        return STARAN_REFUSED_TEXT_ITEM_ABOVE;
    m->list_bytes += STARAN_SEARCH_LIST_BYTES(n);
    m->items_bytes += STARAN_SEARCH_ITEMS_BYTES(n);
    return STARAN_DONE;
}

static uint32_t greatest(maker *m)
{
    uint32_t a, no = next_field(m, &a), built[STARAN_LIST_NUMBERS];
    if (no != STARAN_DONE)
        return no;
    next(m);
    no = line_ends(m);
    if (no != STARAN_DONE)
        return no;
    if (m->list != NULL)
        staran_greatest_list(m->starts[a], m->widths[a], m->list + m->list_bytes, MOST_BYTES, built);
    m->list_bytes += STARAN_GREATEST_LIST_BYTES(m->widths[a]);
    return STARAN_DONE;
}

static uint32_t reach(maker *m)
{
    uint32_t no = next_is(m, WORD('a', 't'));
    if (no == STARAN_DONE)
        no = next_is(m, WORD('m', 'o', 's', 't'));
    if (no != STARAN_DONE)
        return no;
    next(m);
    const uint32_t limit = number(m);
    if (limit < 1 || limit > 256)
        return refused(m, STARAN_REFUSED_TEXT_NUMBER);
    next(m);
    if (m->name != WORD('w', 'o', 'r', 'd') && m->name != WORD('w', 'o', 'r', 'd', 's'))
        return refused(m, STARAN_REFUSED_TEXT_WORD);
    m->limit = limit;
    next(m);
    return line_ends(m);
}

/* ---- lines: the first word says what it is. When the bytes are written, the fields have their names and no store reaches too far: those lines are passed over */

static int is_difference(const maker *m) { return m->length == 10 && memcmp(m->word, "difference", 10) == 0; }

static uint32_t line(maker *m)
{
    switch (m->name) {
    case WORD('l', 'o', 'g', 'i', 'c'):
        return instruction(m, 0);
    case WORD('s', 'e', 't', 'm'):
        return instruction(m, 1);
    case WORD('s', 't', 'o', 'r', 'e'):
        return instruction(m, 2);
    case WORD('m', 's', 't', 'o', 'r', 'e'):
        return instruction(m, 3);
    case WORD('d', 'e', 'l', 'i', 'v', 'e', 'r'):
        return instruction(m, 4);
    case WORD('r', 'e', 's', 'o', 'l', 'v', 'e'):
        return instruction(m, 5);
    case WORD('s', 'e', 't'):
        return instruction(m, 6);
    case WORD('b', 'y', 't', 'e', 's'):
        return instruction(m, 7);
    case WORD('f', 'i', 'e', 'l', 'd'):
        return m->list != NULL ? STARAN_DONE : field(m);
    case WORD('s', 'u', 'm'):
        return sum(m, 0);
    case WORD('e', 'q', 'u', 'a', 'l'):
        return search(m, 0);
    case WORD('l', 'e', 's', 's'):
        return search(m, 1);
    case WORD('g', 'r', 'e', 'a', 't', 'e', 's', 't'):
        return greatest(m);
    case WORD('r', 'e', 'a', 'c', 'h'):
        return m->list != NULL ? STARAN_DONE : reach(m);
    default:
        return is_difference(m) ? sum(m, 1) : STARAN_REFUSED_TEXT_NAME;
    }
}

/* All lines, up to the first that is refused, with that one's number and place. */
static uint32_t lines(maker *m, const uint8_t *text, size_t length, uint32_t place[2])
{
    m->end = text + length;
    m->word = text;
    m->limit = NO_LIMIT;
    m->list_bytes = m->items_bytes = 0;
    for (uint32_t number = 1;; number++) {
        m->line = m->word;
        m->length = 0;
        next(m);
        const uint8_t *first = m->word;
        if (m->length != 0) {
            const uint32_t no = line(m);
            if (no != STARAN_DONE) {
                place[0] = number;
                place[1] = 1 + (uint32_t)((no == STARAN_REFUSED_TEXT_REACH || no == STARAN_REFUSED_TEXT_ITEM_ABOVE ? first : m->word) - m->line);
                return no;
            }
        }
        while (m->word != m->end && *m->word != '\n')
            m->word++;
        if (m->word == m->end)
            return STARAN_DONE;
        m->word++;
    }
}

void staran_make(const uint8_t *text, size_t text_length, uint8_t *list, size_t list_length, uint8_t *items, size_t items_length,
                 uint32_t answer[STARAN_MAKE_NUMBERS])
{
    maker m;
    memset(answer, 0, STARAN_MAKE_NUMBERS * sizeof *answer);
    if (text_length > STARAN_LONGEST_TEXT) {
        answer[0] = STARAN_REFUSED_TEXT_LENGTH;
        return;
    }
    m.fields = 0;
    m.takes_outside = 0;
    m.list = m.items = NULL;
    memset(m.modes, 0, sizeof m.modes);
    answer[0] = lines(&m, text, text_length, answer + 1);
    if (answer[0] == STARAN_DONE)
        answer[0] = m.list_bytes > MOST_BYTES                                      ? STARAN_REFUSED_LIST_LENGTH
                    : m.items_bytes > MOST_BYTES                                   ? STARAN_REFUSED_ITEMS_LENGTH
                    : list_length < m.list_bytes || items_length < m.items_bytes   ? STARAN_REFUSED_LIST_TOO_SHORT
                                                                                   : STARAN_DONE;
    if (answer[0] != STARAN_DONE)
        return;
    m.list = list;
    m.items = items;
    lines(&m, text, text_length, answer + 1);
    answer[3] = (uint32_t)m.list_bytes;
    answer[4] = (uint32_t)m.items_bytes;
}
