/* A ladder from its interpretable text, in plain C99: one file, no allocation, limits as constants.
 *
 * ld_load reads a text by a function that gives its next byte, or -1 behind the last one. It answers 0, or the number of the
 * line at which the text is refused or passes a limit. Then each call of ld_cycle does one cycle of the ladder. What the
 * ladder sees and does goes through the hooks below, the same as those of a C text. docs/FORMATS.md has the text and the hooks.
 */
#include <string.h>

extern int ld_in(int), ld_adc(int), ld_rx(void), ld_tx(void), ld_eebusy(void), ld_eerd(int);
extern void ld_out(int, int), ld_pwm(int, long), ld_send(int), ld_eewr(int, int);

enum { MOST_OPS = 20000, MOST_BITS = 4096, MOST_NAMES = 4096, MOST_VALUES = 8192, MOST_NESTED = 32, LINE = 1024, WORDS = 64 };

/* The lists of names, in the order of a text. */
enum list { INPUT, OUTPUT, ANALOG, VARIABLE, RELAY, PERSISTENT, LISTS };
static const char *const list_words[LISTS] = {"input", "output", "analog", "var", "relay", "persist"};

enum op { SET, CLR, CPY, NOT, IFS, IFC, IFLT, IFEQ, IFEE, ELS, FI, LIT, MOV, ADD, SUB, MUL, DIV, INC, DEC, ADC, PWM, RX, TX, EEBUSY,
          EERD, EEWR, TAB, OPS };

/* The words of each operation: b a bit that is written, s one that is read, v a variable, w a variable or a number, n a number, a the
 * number of a persistent variable, k that of an analog input, h hertz, t how many values stand behind it. */
static const struct { const char *word, *shape; } table[OPS] = {
    {"set", "b"}, {"clr", "b"}, {"cpy", "bs"}, {"not", "bs"}, {"ifs", "s"}, {"ifc", "s"}, {"iflt", "ww"}, {"ifeq", "ww"}, {"ifee", "va"},
    {"els", ""}, {"fi", ""}, {"lit", "vn"}, {"mov", "vv"}, {"add", "vww"}, {"sub", "vww"}, {"mul", "vww"}, {"div", "vww"}, {"inc", "v"},
    {"dec", "v"}, {"adc", "vk"}, {"pwm", "wh"}, {"rx", "vb"}, {"tx", "wsb"}, {"eebusy", "b"}, {"eerd", "va"}, {"eewr", "wa"}, {"tab", "vwt"}};

/* A bit b, x or y, a variable v, or a number n. */
struct word { char kind; long long number; };

/* An operation. Where an if does not run, the next operation is `target`, and so it is behind an els. */
struct operation { enum op op; struct word words[3]; int target, values; };

static struct {
    char names[LISTS][MOST_NAMES][68];
    int counts[LISTS];
    short starts[MOST_NAMES], values[MOST_VALUES];
    struct operation ops[MOST_OPS];
    int op_count, bit_count, value_count, has_pwm;
} program;

static int bits[MOST_BITS], inputs[MOST_NAMES], outputs[MOST_NAMES], numbers[MOST_NAMES];
static int received, sending, writing, waits, waiting_address, waiting_byte;

/* ---- reading ---- */

static char line[LINE];
static char *words[WORDS + 8];

/* The next line, cut into words at single spaces: how many, or -1 where there is none or it is too long. */
static int next_line(int (*next)(void)) {
    int length = 0, count = 1, c;
    while ((c = next()) != '\n' && c >= 0) {
        if (length == LINE - 1) return -1;
        line[length++] = (char)c;
    }
    if (c < 0 && length == 0) return -1;
    line[length] = 0;
    words[0] = line;
    for (char *p = line; *p; p++) {
        if (*p != ' ') continue;
        if (count == WORDS + 7) return -1;
        *p = 0;
        words[count++] = p + 1;
    }
    return count;
}

/* Reads a number from low to high, with a '-' in front where low is below 0. */
static int number(const char *p, long long low, long long high, long long *n) {
    int minus = *p == '-' && low < 0;
    *n = 0;
    if (minus) p++;
    if (!*p) return 0;
    for (; *p; p++) {
        if (*p < '0' || *p > '9' || *n > high + 1) return 0;
        *n = *n * 10 + (*p - '0');
    }
    if (minus) *n = -*n;
    return low <= *n && *n <= high;
}

static int is_name(const char *p) {
    size_t n = strlen(p);
    if (n < 1 || n > 66 || (*p >= '0' && *p <= '9')) return 0;
    return strspn(p, "ABCDEFGHIJKLMNOPQRSTUVWXYZabcdefghijklmnopqrstuvwxyz0123456789_") == n;
}

static int place(const char *name, enum list list) {
    for (int k = 0; k < program.counts[list]; k++)
        if (!strcmp(program.names[list][k], name)) return k;
    return -1;
}

/* A line of a name, and of a variable's number. A list never stands before one of a list in front of it. */
static int read_name(int count, enum list *from) {
    long long start = 0;
    for (enum list list = *from; list < LISTS; list++) {
        if (strcmp(words[0], list_words[list])) continue;
        int k = program.counts[list];
        if (count != (list == VARIABLE ? 3 : 2) || !is_name(words[1]) || place(words[1], list) >= 0 || k == MOST_NAMES) return 0;
        if (list == PERSISTENT && (k == 256 || place(words[1], VARIABLE) < 0)) return 0;
        if (list == VARIABLE && !number(words[2], -32768, 32767, &start)) return 0;
        if (list == VARIABLE) program.starts[k] = (short)start;
        strcpy(program.names[list][k], words[1]);
        program.counts[list]++;
        *from = list;
        return 1;
    }
    return 0;
}

/* A word of an operation. */
static int read_word(char shape, const char *p, struct word *w) {
    int last = 0;
    w->kind = *p;
    switch (shape) {
    case 'b': case 's':
        last = *p == 'b' ? program.bit_count : *p == 'y' ? program.counts[OUTPUT] : *p == 'x' && shape == 's' ? program.counts[INPUT] : 0;
        return number(p + (*p != 0), 0, last - 1, &w->number);
    case 'v': case 'w':
        if (*p == 'v') return number(p + 1, 0, program.counts[VARIABLE] - 1, &w->number);
        w->kind = 'n';
        return shape == 'w' && number(p, -32768, 32767, &w->number);
    case 'n': return number(p, -32768, 32767, &w->number);
    case 'a': return number(p, 0, program.counts[PERSISTENT] - 1, &w->number);
    case 'k': return number(p, 0, program.counts[ANALOG] - 1, &w->number);
    case 'h': return number(p, 0, 4294967295LL, &w->number);
    default: return number(p, 0, 60, &w->number);
    }
}

/* The values of a table, which stand behind their count. */
static int read_values(struct operation *o, int count) {
    long long n;
    o->values = program.value_count;
    if (count != 4 + (int)o->words[2].number || program.value_count + 60 > MOST_VALUES) return 0;
    for (int k = 4; k < count; k++) {
        if (!number(words[k], -32768, 32767, &n)) return 0;
        program.values[program.value_count++] = (short)n;
    }
    return 1;
}

static int open_ifs[MOST_NESTED], open_count;

/* Where an operation stands among ifs: an if goes on behind its els, or with its fi where it has none, and an els with the fi. */
static int close_ifs(enum op op, int here) {
    if (op >= IFS && op <= IFEE) {
        if (open_count == MOST_NESTED) return 0;
        open_ifs[open_count++] = here;
    } else if (op == ELS || op == FI) {
        if (open_count == 0) return 0;
        int opened = open_ifs[open_count - 1];
        if (op == ELS && program.ops[opened].op == ELS) return 0;
        program.ops[opened].target = op == ELS ? here + 1 : here;
        open_ifs[open_count - 1] = here;
        if (op == FI) open_count--;
    }
    return 1;
}

static int read_operation(int count) {
    struct operation *o = &program.ops[program.op_count];
    if (program.op_count == MOST_OPS) return 0;
    for (int op = 0; op < OPS; op++) {
        int size = (int)strlen(table[op].shape);
        if (strcmp(words[0], table[op].word)) continue;
        if (op == TAB ? count < 4 : count != 1 + size) return 0;
        o->op = (enum op)op;
        for (int k = 0; k < size; k++)
            if (!read_word(table[op].shape[k], words[1 + k], &o->words[k])) return 0;
        if (op == TAB && !read_values(o, count)) return 0;
        program.has_pwm |= op == PWM;
        return close_ifs(o->op, program.op_count++);
    }
    return 0;
}

/* Variables start at their numbers, and all else at 0. */
static void begin(void) {
    memset(bits, 0, sizeof bits);
    memset(outputs, 0, sizeof outputs);
    waits = 0;
    for (int k = 0; k < program.counts[VARIABLE]; k++) numbers[k] = program.starts[k];
}

int ld_load(int (*next)(void)) {
    enum list list = INPUT;
    long long n;
    int at = 1, count;
    memset(&program, 0, sizeof program);
    open_count = 0;
    if (next_line(next) != 2 || strcmp(words[0], "LDint") || strcmp(words[1], "1")) return at;
    at++;
    if (next_line(next) != 2 || strcmp(words[0], "cycle") || !number(words[1], 0, 999999999, &n)) return at;
    for (at++; (count = next_line(next)) > 0 && strcmp(words[0], "bits"); at++)
        if (!read_name(count, &list)) return at;
    for (int k = 0; k < program.counts[ANALOG]; k++)
        if (place(program.names[ANALOG][k], VARIABLE) < 0) return at;
    if (count != 2 || !number(words[1], program.counts[RELAY], MOST_BITS, &n)) return at;
    program.bit_count = (int)n;
    at++;
    if (next_line(next) != 1 || strcmp(words[0], "code")) return at;
    for (at++; (count = next_line(next)) > 0 && strcmp(words[0], "end"); at++)
        if (!read_operation(count)) return at;
    if (count != 1 || open_count != 0) return at;
    begin();
    return next() < 0 ? 0 : at + 1;
}

/* ---- running ---- */

static int w16(long n) {
    n &= 65535;
    return (int)(n > 32767 ? n - 65536 : n);
}

static int bit(struct word w) {
    return w.kind == 'b' ? bits[w.number] : w.kind == 'x' ? inputs[w.number] : outputs[w.number];
}

static void set_bit(struct word w, int level) {
    *(w.kind == 'b' ? &bits[w.number] : &outputs[w.number]) = level;
}

static long value(struct word w) { return w.kind == 'v' ? numbers[w.number] : (long)w.number; }

static int saved(struct word a) {
    int low = 2 * (int)a.number;
    return w16(ld_eerd(low) + 256L * ld_eerd(low + 1));
}

/* The EEPROM is busy while it writes. A byte that waits is written first. */
static int is_busy(void) {
    if (writing) return 1;
    if (!waits) return 0;
    ld_eewr(waiting_address, waiting_byte);
    waits = 0;
    writing = 1;
    return 1;
}

/* The low byte is written, and the high byte waits. */
static void save(struct word w, struct word a) {
    long n = value(w) & 65535;
    ld_eewr(2 * (int)a.number, (int)(n & 255));
    writing = waits = 1;
    waiting_address = 2 * (int)a.number + 1;
    waiting_byte = (int)(n >> 8);
}

static void take(struct word v, struct word b) {
    set_bit(b, received >= 0);
    if (received >= 0) numbers[v.number] = received;
    received = -1;
}

static void give(struct word w, struct word s, struct word b) {
    if (bit(s) && !sending) {
        ld_send((int)(value(w) & 255));
        sending = 1;
    }
    set_bit(b, sending);
}

static int percent(long n) { return n < 0 ? 0 : n > 100 ? 100 : (int)n; }

static int quotient(long a, long b) { return b == 0 ? 0 : w16(a / b); }

/* Does an operation, and answers the place of the next one. */
static int execute(int here) {
    const struct operation *o = &program.ops[here];
    const struct word *w = o->words;
    int *v = &numbers[w[0].kind == 'v' ? w[0].number : 0];
    long index;
    switch (o->op) {
    case SET: set_bit(w[0], 1); break;
    case CLR: set_bit(w[0], 0); break;
    case CPY: set_bit(w[0], bit(w[1])); break;
    case NOT: set_bit(w[0], !bit(w[1])); break;
    case IFS: return bit(w[0]) ? here + 1 : o->target;
    case IFC: return !bit(w[0]) ? here + 1 : o->target;
    case IFLT: return value(w[0]) < value(w[1]) ? here + 1 : o->target;
    case IFEQ: return value(w[0]) == value(w[1]) ? here + 1 : o->target;
    case IFEE: return *v == saved(w[1]) ? here + 1 : o->target;
    case ELS: return o->target;
    case FI: break;
    case LIT: case MOV: *v = (int)value(w[1]); break;
    case ADD: *v = w16(value(w[1]) + value(w[2])); break;
    case SUB: *v = w16(value(w[1]) - value(w[2])); break;
    case MUL: *v = w16(value(w[1]) * value(w[2])); break;
    case DIV: *v = quotient(value(w[1]), value(w[2])); break;
    case INC: *v = w16(*v + 1L); break;
    case DEC: *v = w16(*v - 1L); break;
    case ADC: *v = ld_adc((int)w[1].number); break;
    case PWM: ld_pwm(percent(value(w[0])), (long)w[1].number); break;
    case RX: take(w[0], w[1]); break;
    case TX: give(w[0], w[1], w[2]); break;
    case EEBUSY: set_bit(w[0], is_busy()); break;
    case EERD: *v = saved(w[1]); break;
    case EEWR: save(w[0], w[1]); break;
    case TAB:
        index = value(w[1]);
        if (index >= 0 && index < w[2].number) *v = program.values[o->values + index];
        break;
    case OPS: break;
    }
    return here + 1;
}

void ld_cycle(void) {
    for (int k = 0; k < program.counts[INPUT]; k++) inputs[k] = ld_in(k);
    received = ld_rx();
    sending = ld_tx();
    writing = ld_eebusy();
    for (int here = 0; here < program.op_count; here = execute(here)) {}
    for (int k = 0; k < program.counts[OUTPUT]; k++) ld_out(k, outputs[k]);
}

/* ---- looking, for who wants to see the state ---- */

/* The lists by their first letters: i, o, a, v, r and p. */
static enum list list_of(char letter) {
    enum list list = INPUT;
    while (list < PERSISTENT && *list_words[list] != letter) list++;
    return list;
}

int ld_count(char letter) { return program.counts[list_of(letter)]; }
const char *ld_name(char letter, int k) { return program.names[list_of(letter)][k]; }
int ld_value(char letter, int k) { return letter == 'v' ? numbers[k] : bits[k]; }
int ld_has_pwm(void) { return program.has_pwm; }
