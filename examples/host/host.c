/* Runs a ladder over a trace on standard input, and prints a line for each cycle, as `ldmicro /s` does. Plain C99.
 *
 *     cc -std=c99 -o run host.c ldint.c && ./run motor.int <motor.trace          an interpretable text
 *     cc -std=c99 -I. -o run host.c ctext.c && ./run <motor.trace                a C text: see ctext.c
 *
 * The functions that begin with ld_ up to ld_eewr are the hooks. On a controller they read and write its pins, converter, serial line
 * and EEPROM; here they read and write what stands for these. docs/FORMATS.md has the form of traces and lines. */
#include <stdio.h>
#include <stdlib.h>
#include <string.h>

extern int ld_load(int (*next)(void));
extern void ld_cycle(void);
extern int ld_count(char letter), ld_value(char letter, int k), ld_has_pwm(void);
extern const char *ld_name(char letter, int k);

enum { MOST_NAMES = 4096, LINE = 1 << 16, EEPROM_BYTES = 512 };

/* What the ladder sees, and what it did. */
static int levels[MOST_NAMES], analogs[MOST_NAMES], outputs[MOST_NAMES];
static int received, transmitter_busy, eeprom_busy, duty, sent;
static unsigned char eeprom[EEPROM_BYTES];

int ld_in(int k) { return levels[k]; }
int ld_adc(int k) { return analogs[k]; }
int ld_rx(void) { return received; }
int ld_tx(void) { return transmitter_busy; }
int ld_eebusy(void) { return eeprom_busy; }
int ld_eerd(int a) { return eeprom[a]; }
void ld_out(int k, int level) { outputs[k] = level; }
void ld_pwm(int percent, long hertz) { duty = percent; (void)hertz; }
void ld_send(int byte) { sent = byte; }
void ld_eewr(int a, int byte) { eeprom[a] = (unsigned char)byte; }

static int place(char letter, const char *name) {
    for (int k = 0; k < ld_count(letter); k++)
        if (!strcmp(ld_name(letter, k), name)) return k;
    return -1;
}

/* A line of the EEPROM's first bytes. */
static void fill(const char *digits) {
    unsigned byte;
    for (int a = 0; a < EEPROM_BYTES && sscanf(digits + 2 * a, "%2x", &byte) == 1; a++) eeprom[a] = (unsigned char)byte;
}

/* KEY=VALUE of a step. Answers whether it is one. */
static int set(char *word) {
    char *equals = strchr(word, '=');
    if (!equals) return 0;
    *equals = 0;
    int number = atoi(equals + 1), k;
    if (!strcmp(word, "rx")) received = number;
    else if (!strcmp(word, "tx")) transmitter_busy = number;
    else if (!strcmp(word, "ee")) eeprom_busy = number;
    else if ((k = place('i', word)) >= 0) levels[k] = number;
    else if ((k = place('a', word)) >= 0) analogs[k] = number;
    else return 0;
    return 1;
}

static void show(long cycle) {
    printf("%ld", cycle);
    for (int k = 0; k < ld_count('o'); k++) printf(" %s=%d", ld_name('o', k), outputs[k]);
    for (int k = 0; k < ld_count('r'); k++) printf(" %s=%d", ld_name('r', k), ld_value('r', k));
    for (int k = 0; k < ld_count('v'); k++) printf(" %s=%d", ld_name('v', k), ld_value('v', k));
    if (ld_has_pwm()) printf(" pwm=%d", duty);
    if (sent >= 0) printf(" sent=%d", sent);
    if (ld_count('p') > 0) printf(" ee=");
    for (int a = 0; a < 2 * ld_count('p'); a++) printf("%02x", eeprom[a]);
    printf("\n");
}

/* The received byte is there for each of the step's cycles. */
static void run(long *cycle, long times) {
    while (times-- > 0) {
        sent = -1;
        ld_cycle();
        show(++*cycle);
    }
}

static FILE *text;
static int next_byte(void) { return fgetc(text); }

/* Reads the text that the first word names, where the ladder has one. */
static int load(const char *name) {
    text = fopen(name, "rb");
    if (!text) return -1;
    int at = ld_load(next_byte);
    fclose(text);
    return at;
}

int main(int argc, char **argv) {
    static char line[LINE];
    long cycle = 0, at = 0;
    int refused = argc > 1 ? load(argv[1]) : ld_load(NULL);
    if (refused) {
        printf("refused at line %d\n", refused);
        return 1;
    }
    memset(eeprom, 255, sizeof eeprom);
    while (fgets(line, sizeof line, stdin)) {
        char *word = strtok(line, " \r\n");
        long times = 1;
        at++;
        received = -1;
        transmitter_busy = eeprom_busy = 0;
        if (!word || *word == '#') continue;
        if (!strcmp(word, "eeprom")) {
            word = strtok(NULL, " \r\n");
            fill(word ? word : "");
            continue;
        }
        if (word[strlen(word) - 1] == ':') {
            times = atol(word);
            word = strtok(NULL, " \r\n");
        }
        for (; word; word = strtok(NULL, " \r\n"))
            if (!set(word)) {
                printf("refused at line %ld of the trace\n", at);
                return 1;
            }
        run(&cycle, times);
    }
    return 0;
}
