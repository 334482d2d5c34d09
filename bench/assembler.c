// The assembler in C, to measure the proved one against. It follows docs/TEXT.md and docs/REFUSALS.md.
//
//   assembler [TIMES] < TEXT
//
// prints the words of the text's image, four hexadecimal digits a line, or "refused N line L", and then ends with status
// 1. With TIMES it assembles the text so many times and prints once.
//
// Refusals 13 and 15 cannot come: a record for each of 2,048 lines is enough, and so is the image's buffer for any text.
#include <stdbool.h>
#include <stdint.h>
#include <stdio.h>
#include <stdlib.h>
#include <string.h>

enum {
    MOST_BYTES = 32768,
    MOST_LINES = 2048,
    MOST_IN_LINE = 120,
    MOST_IN_NAME = 32,
    MOST_LABELS = 256,
    IMAGE_BYTES = 65536,
    // Numbers count no further: it lies outside every range.
    BOUND = 1000000,
};

struct bytes {
    const char *at;
    size_t length;
};

struct label {
    struct bytes name;
    uint16_t address;
};

// An address that waits for its label: it goes into the low bytes of the two words at a place of the image.
struct use {
    struct bytes name;
    size_t place;
    int line;
};

struct assembly {
    uint8_t image[IMAGE_BYTES];
    size_t length;
    struct label labels[MOST_LABELS];
    int label_count;
    struct use uses[MOST_LINES];
    int use_count;
    int line;
};

enum refusal {
    ACCEPTED = 0,
    TEXT_TOO_LONG = 1,
    TOO_MANY_LINES = 2,
    BAD_CHARACTERS = 3,
    INDENTED = 4,
    BAD_LABEL = 5,
    LABEL_TWICE = 6,
    NO_LABEL_RECORD = 7,
    BAD_DATA = 8,
    UNKNOWN_MNEMONIC = 9,
    NO_SUCH_ROW = 10,
    OUT_OF_RANGE = 11,
    WRONG_REGISTER = 12,
    NAME_UNDEFINED = 14,
};

// How a mnemonic takes registers: the first five are forms of words, the others are short for words.
enum form {
    NO_REGISTERS,
    THREE_REGISTERS,
    LAST_ZERO,
    MIDDLE_ZERO,
    FIRST_ZERO,
    HALT,
    NOP,
    DOUBLE,
    NOT,
    NEGATE,
    CONSTANT,
    LONG_SHIFT,
};

enum immediate { NO_IMMEDIATE, ZERO_EXTENDED, SIGN_EXTENDED };

struct mnemonic {
    const char *name;
    enum form form;
    uint8_t opcode;
    uint8_t op2;
    enum immediate immediate;
};

enum { AND = 0, XOR = 2, ADD = 5, SUB = 6, LSR = 0, ASR = 1, LDC = 9, BNZ = 11 };

static const struct mnemonic MNEMONICS[] = {
    {"and", THREE_REGISTERS, AND, 0, ZERO_EXTENDED},
    {"or", THREE_REGISTERS, 1, 0, ZERO_EXTENDED},
    {"xor", THREE_REGISTERS, XOR, 0, SIGN_EXTENDED},
    {"slt", THREE_REGISTERS, 3, 0, SIGN_EXTENDED},
    {"sltu", THREE_REGISTERS, 4, 0, SIGN_EXTENDED},
    {"add", THREE_REGISTERS, ADD, 0, SIGN_EXTENDED},
    {"sub", THREE_REGISTERS, SUB, 0, SIGN_EXTENDED},
    {"lsr", LAST_ZERO, LSR, 1, NO_IMMEDIATE},
    {"asr", LAST_ZERO, ASR, 1, NO_IMMEDIATE},
    {"ldb", MIDDLE_ZERO, 0, 2, NO_IMMEDIATE},
    {"ldw", MIDDLE_ZERO, 4, 2, NO_IMMEDIATE},
    {"stb", FIRST_ZERO, 1, 2, NO_IMMEDIATE},
    {"stw", FIRST_ZERO, 5, 2, NO_IMMEDIATE},
    {"bez", FIRST_ZERO, 10, 3, SIGN_EXTENDED},
    {"bnz", FIRST_ZERO, BNZ, 3, SIGN_EXTENDED},
    {"ldr", NO_REGISTERS, 8, 0, SIGN_EXTENDED},
    {"ldc", NO_REGISTERS, LDC, 0, ZERO_EXTENDED},
    {"hcf", HALT, 0, 3, NO_IMMEDIATE},
    {"nop", NOP, 0, 0, NO_IMMEDIATE},
    {"lsl", DOUBLE, 0, 0, NO_IMMEDIATE},
    {"not", NOT, 0, 0, NO_IMMEDIATE},
    {"neg", NEGATE, 0, 0, NO_IMMEDIATE},
    {"ldi", CONSTANT, 0, 0, NO_IMMEDIATE},
    // With the word that shifts by one place.
    {"lsrm", LONG_SHIFT, LSR, 1, NO_IMMEDIATE},
    {"asrm", LONG_SHIFT, ASR, 1, NO_IMMEDIATE},
    {"lslm", LONG_SHIFT, ADD, 0, NO_IMMEDIATE},
};

// Reading

static bool same(struct bytes a, struct bytes b) {
    return a.length == b.length && memcmp(a.at, b.at, a.length) == 0;
}

// Takes all before the first byte that is one of two, and the byte itself, off the front. Answers whether there was one.
static bool cut(struct bytes *rest, char one, char other, struct bytes *first) {
    for (size_t i = 0; i < rest->length; i++) {
        if (rest->at[i] == one || rest->at[i] == other) {
            *first = (struct bytes){rest->at, i};
            rest->at += i + 1;
            rest->length -= i + 1;
            return true;
        }
    }
    *first = *rest;
    *rest = (struct bytes){rest->at + rest->length, 0};
    return false;
}

static int read_register(struct bytes text) {
    if (text.length != 2)
        return -1;
    char a = text.at[0], b = text.at[1];
    if (a == 'r')
        return b >= '0' && b <= '7' ? b - '0' : -1;
    if (a == 'a' && b == 't')
        return 0;
    if (a == 's' && b == 'r')
        return 5;
    if (a == 'l' && b == 'r')
        return 6;
    if (a == 's' && b == 'p')
        return 7;
    return -1;
}

static bool is_digit(char c) {
    return c >= '0' && c <= '9';
}

static bool begins_name(char c) {
    return (c >= 'a' && c <= 'z') || (c >= 'A' && c <= 'Z') || c == '_';
}

static bool is_name(struct bytes text) {
    if (text.length == 0 || text.length > MOST_IN_NAME || !begins_name(text.at[0]))
        return false;
    for (size_t i = 1; i < text.length; i++)
        if (!begins_name(text.at[i]) && !is_digit(text.at[i]))
            return false;
    return read_register(text) < 0;
}

static int digit_of(char c) {
    if (is_digit(c))
        return c - '0';
    if (c >= 'a' && c <= 'f')
        return c - 'a' + 10;
    if (c >= 'A' && c <= 'F')
        return c - 'A' + 10;
    return 16;
}

static bool read_number(struct bytes text, int32_t *number) {
    const char *p = text.at, *end = text.at + text.length;
    bool negative = p < end && *p == '-';
    if (negative)
        p++;
    int base = 10;
    if (p < end && *p == '0' && end - p > 1) {
        switch (p[1]) {
        case 'x': case 'X': base = 16; break;
        case 'o': case 'O': base = 8; break;
        case 'b': case 'B': base = 2; break;
        default: return false;
        }
        p += 2;
    }
    if (p == end)
        return false;
    int32_t n = 0;
    for (; p < end; p++) {
        int digit = digit_of(*p);
        if (digit >= base)
            return false;
        n = n * base + digit;
        if (n > BOUND)
            n = BOUND;
    }
    *number = negative ? -n : n;
    return true;
}

static const struct mnemonic *read_mnemonic(struct bytes text) {
    for (size_t i = 0; i < sizeof MNEMONICS / sizeof *MNEMONICS; i++) {
        const char *name = MNEMONICS[i].name;
        if (strlen(name) == text.length && memcmp(name, text.at, text.length) == 0)
            return &MNEMONICS[i];
    }
    return NULL;
}

enum kind { REGISTER, NUMBER, NAME };

struct operand {
    enum kind kind;
    int32_t value;
    struct bytes name;
};

static bool read_operand(struct bytes text, struct operand *operand) {
    int r = read_register(text);
    if (r >= 0) {
        *operand = (struct operand){.kind = REGISTER, .value = r};
        return true;
    }
    if (is_name(text)) {
        *operand = (struct operand){.kind = NAME, .name = text};
        return true;
    }
    operand->kind = NUMBER;
    return read_number(text, &operand->value);
}

// How many operands there are, or -1 where they are malformed or more than three.
static int read_operands(struct bytes rest, struct operand operands[3]) {
    for (int count = 0; count < 3;) {
        struct bytes first;
        bool more = cut(&rest, ',', ',', &first);
        if (!read_operand(first, &operands[count]))
            return -1;
        count++;
        if (!more)
            return count;
    }
    return -1;
}

// Words

static void put(struct assembly *a, unsigned word) {
    a->image[a->length++] = word >> 8;
    a->image[a->length++] = word;
}

static unsigned register_word(unsigned opcode, unsigned op2, unsigned rst, unsigned rsa, unsigned rsb) {
    return opcode << 12 | rst << 8 | rsa << 5 | rsb << 2 | op2;
}

static unsigned immediate_word(unsigned opcode, unsigned rst, int32_t n) {
    return opcode << 12 | 1 << 11 | rst << 8 | (n & 0xFF);
}

// A number, or the address of a name.
static void put_constant(struct assembly *a, unsigned r, const struct operand *c) {
    uint16_t value = 0;
    if (c->kind == NAME)
        a->uses[a->use_count++] = (struct use){c->name, a->length, a->line};
    else
        value = (uint16_t)c->value;
    put(a, immediate_word(LDC, r, value >> 8));
    put(a, immediate_word(LDC, r, value));
}

static unsigned with_zero(const struct mnemonic *m, unsigned r, unsigned s) {
    switch (m->form) {
    case LAST_ZERO: return register_word(m->opcode, m->op2, r, s, 0);
    case MIDDLE_ZERO: return register_word(m->opcode, m->op2, r, 0, s);
    default: return register_word(m->opcode, m->op2, 0, r, s);
    }
}

static bool fits_word(int32_t n) {
    return n >= -32768 && n <= 65535;
}

static bool fits_byte(enum immediate immediate, int32_t n) {
    return immediate == ZERO_EXTENDED ? n >= 0 && n <= 255 : n >= -128 && n <= 127;
}

// Instructions, by their operands

static enum refusal put_alone(struct assembly *a, const struct mnemonic *m) {
    if (m->form != HALT && m->form != NOP)
        return NO_SUCH_ROW;
    put(a, m->form == HALT ? 0x0003 : 0x0000);
    return ACCEPTED;
}

static enum refusal put_one(struct assembly *a, const struct mnemonic *m, unsigned r) {
    switch (m->form) {
    case NOT:
        put(a, immediate_word(XOR, r, -1));
        return ACCEPTED;
    case NEGATE:
        if (r == 0)
            return WRONG_REGISTER;
        put(a, register_word(XOR, 0, 0, 0, 0));
        put(a, register_word(SUB, 0, r, 0, r));
        return ACCEPTED;
    default:
        return NO_SUCH_ROW;
    }
}

static enum refusal put_two(struct assembly *a, const struct mnemonic *m, unsigned r, unsigned s) {
    switch (m->form) {
    case LAST_ZERO: case MIDDLE_ZERO: case FIRST_ZERO:
        put(a, with_zero(m, r, s));
        return ACCEPTED;
    case DOUBLE:
        put(a, register_word(ADD, 0, r, s, s));
        return ACCEPTED;
    case LONG_SHIFT:
        if (r == s)
            return WRONG_REGISTER;
        put(a, register_word(m->opcode, m->op2, r, r, m->op2 == 0 ? r : 0));
        put(a, immediate_word(SUB, s, 1));
        put(a, immediate_word(BNZ, s, -6));
        return ACCEPTED;
    default:
        return NO_SUCH_ROW;
    }
}

static enum refusal put_three(struct assembly *a, const struct mnemonic *m, const struct operand o[3]) {
    int zero = 0;
    switch (m->form) {
    case THREE_REGISTERS: break;
    case LAST_ZERO: zero = o[2].value; break;
    case MIDDLE_ZERO: zero = o[1].value; break;
    case FIRST_ZERO: zero = o[0].value; break;
    default: return NO_SUCH_ROW;
    }
    if (zero != 0)
        return WRONG_REGISTER;
    put(a, register_word(m->opcode, m->op2, o[0].value, o[1].value, o[2].value));
    return ACCEPTED;
}

static enum refusal put_by_way_of_at(struct assembly *a, const struct mnemonic *m, unsigned r, const struct operand *c) {
    if (c->kind == NUMBER && !fits_word(c->value))
        return OUT_OF_RANGE;
    if (r == 0)
        return WRONG_REGISTER;
    put_constant(a, 0, c);
    put(a, with_zero(m, r, 0));
    return ACCEPTED;
}

// A register with a number or a name.
static enum refusal put_with(struct assembly *a, const struct mnemonic *m, unsigned r, const struct operand *c) {
    if (m->form == CONSTANT) {
        if (c->kind == NUMBER && !fits_word(c->value))
            return OUT_OF_RANGE;
        put_constant(a, r, c);
        return ACCEPTED;
    }
    if (c->kind == NUMBER && m->immediate != NO_IMMEDIATE) {
        if (!fits_byte(m->immediate, c->value))
            return OUT_OF_RANGE;
        put(a, immediate_word(m->opcode, r, c->value));
        return ACCEPTED;
    }
    if (m->form == MIDDLE_ZERO || m->form == FIRST_ZERO)
        return put_by_way_of_at(a, m, r, c);
    return NO_SUCH_ROW;
}

// Lines

static enum refusal read_instruction(struct assembly *a, struct bytes rest) {
    struct bytes word;
    bool more = cut(&rest, ' ', '\t', &word);
    const struct mnemonic *m = read_mnemonic(word);
    if (m == NULL)
        return UNKNOWN_MNEMONIC;
    if (!more)
        return put_alone(a, m);
    struct operand o[3];
    int count = read_operands(rest, o);
    if (count < 1 || o[0].kind != REGISTER)
        return NO_SUCH_ROW;
    if (count == 1)
        return put_one(a, m, o[0].value);
    if (count == 2)
        return o[1].kind == REGISTER ? put_two(a, m, o[0].value, o[1].value) : put_with(a, m, o[0].value, &o[1]);
    if (o[1].kind != REGISTER || o[2].kind != REGISTER)
        return NO_SUCH_ROW;
    return put_three(a, m, o);
}

static enum refusal put_string(struct assembly *a, struct bytes data) {
    if (data.length < 2 || data.at[data.length - 1] != '"')
        return BAD_DATA;
    struct bytes inside = {data.at + 1, data.length - 2};
    if (memchr(inside.at, '"', inside.length) != NULL)
        return BAD_DATA;
    memcpy(a->image + a->length, inside.at, inside.length);
    a->length += inside.length;
    a->image[a->length++] = 0;
    if (a->length % 2 != 0)
        a->image[a->length++] = 0;
    return ACCEPTED;
}

static enum refusal put_data(struct assembly *a, struct bytes data) {
    if (data.length > 0 && data.at[0] == '"')
        return put_string(a, data);
    bool more;
    do {
        struct bytes first;
        int32_t n;
        more = cut(&data, ' ', ' ', &first);
        if (!read_number(first, &n) || !fits_word(n))
            return BAD_DATA;
        put(a, (uint16_t)n);
    } while (more);
    return ACCEPTED;
}

static const struct label *find_label(const struct assembly *a, struct bytes name) {
    for (int i = 0; i < a->label_count; i++)
        if (same(a->labels[i].name, name))
            return &a->labels[i];
    return NULL;
}

static enum refusal read_label(struct assembly *a, struct bytes rest) {
    struct bytes name;
    bool more = cut(&rest, ' ', '\t', &name);
    if (!is_name(name))
        return BAD_LABEL;
    if (find_label(a, name) != NULL)
        return LABEL_TWICE;
    if (a->label_count == MOST_LABELS)
        return NO_LABEL_RECORD;
    a->labels[a->label_count++] = (struct label){name, (uint16_t)a->length};
    return more ? put_data(a, rest) : ACCEPTED;
}

static enum refusal read_line(struct assembly *a, struct bytes line) {
    if (line.length > MOST_IN_LINE)
        return BAD_CHARACTERS;
    for (size_t i = 0; i < line.length; i++)
        if (line.at[i] != '\t' && (line.at[i] < ' ' || line.at[i] > '~'))
            return BAD_CHARACTERS;
    if (line.length == 0)
        return ACCEPTED;
    switch (line.at[0]) {
    case ';': return ACCEPTED;
    case ' ': return INDENTED;
    case '\t': return read_instruction(a, (struct bytes){line.at + 1, line.length - 1});
    default: return read_label(a, line);
    }
}

// Assembling

static enum refusal resolve(struct assembly *a) {
    for (int i = 0; i < a->use_count; i++) {
        const struct use *use = &a->uses[i];
        const struct label *label = find_label(a, use->name);
        if (label == NULL) {
            a->line = use->line;
            return NAME_UNDEFINED;
        }
        a->image[use->place + 1] = label->address >> 8;
        a->image[use->place + 3] = (uint8_t)label->address;
    }
    return ACCEPTED;
}

static int count_lines(struct bytes text) {
    int count = 0;
    for (size_t i = 0; i < text.length; i++)
        count += text.at[i] == '\n';
    return count + (text.length > 0 && text.at[text.length - 1] != '\n');
}

// Answers the refusal, and leaves its line in the assembly.
static enum refusal assemble(struct assembly *a, struct bytes text) {
    a->length = 0;
    a->label_count = a->use_count = a->line = 0;
    if (text.length > MOST_BYTES)
        return TEXT_TOO_LONG;
    if (count_lines(text) > MOST_LINES) {
        a->line = MOST_LINES + 1;
        return TOO_MANY_LINES;
    }
    while (text.length > 0) {
        struct bytes line;
        a->line++;
        cut(&text, '\n', '\n', &line);
        enum refusal refusal = read_line(a, line);
        if (refusal != ACCEPTED)
            return refusal;
    }
    return resolve(a);
}

static void print_words(const struct assembly *a) {
    static const char DIGITS[] = "0123456789abcdef";
    static char out[IMAGE_BYTES / 2 * 5];
    char *p = out;
    for (size_t i = 0; i < a->length; i += 2) {
        uint8_t high = a->image[i], low = a->image[i + 1];
        *p++ = DIGITS[high >> 4];
        *p++ = DIGITS[high & 15];
        *p++ = DIGITS[low >> 4];
        *p++ = DIGITS[low & 15];
        *p++ = '\n';
    }
    fwrite(out, 1, p - out, stdout);
}

int main(int argc, char **argv) {
    static char text[MOST_BYTES + 1];
    static struct assembly assembly;
    long times = argc > 1 ? atol(argv[1]) : 1;
    size_t length = fread(text, 1, sizeof text, stdin);
    enum refusal refusal = ACCEPTED;
    for (long i = 0; i < times; i++)
        refusal = assemble(&assembly, (struct bytes){text, length});
    if (refusal != ACCEPTED)
        printf("refused %d line %d\n", refusal, assembly.line);
    else
        print_words(&assembly);
    return fflush(stdout) != 0 ? 2 : refusal != ACCEPTED;
}
