/* A C text and its names, for host.c. Write the C text of a ladder to ladder.c, and its names to ladder.names:
 *
 *     ldmicro /c motor.ld ladder.c && sh names.sh ladder.c >ladder.names && cc -std=c99 -I. -o run host.c ctext.c
 *
 * A controller needs neither this file nor the names: it compiles ladder.c by itself, and calls ld_cycle. */
#include <stddef.h>
#include "ladder.c"

/* A name of the ladder, by the first letter of its list (input, output, analog, variable, relay, persistent), and where its level or
 * number stands. */
struct entry { char letter; const char *name; const int *at; };

static const struct entry entries[] = {
#define INPUT(name) {'i', #name, &b_##name},
#define OUTPUT(name) {'o', #name, &b_##name},
#define RELAY(name) {'r', #name, &b_##name},
#define VARIABLE(name) {'v', #name, &v_##name},
#define ANALOG(name) {'a', #name, &v_##name},
#define PERSISTENT(name) {'p', #name, &v_##name},
#define PWM {'P', "pwm", NULL},
#include "ladder.names"
    {0, NULL, NULL}};

int ld_load(int (*next)(void)) { return next != NULL; }

/* The entry with the place in a list, or the last one. */
static const struct entry *find(char letter, int k) {
    const struct entry *p = entries;
    while (p->letter && (p->letter != letter || k-- > 0)) p++;
    return p;
}

int ld_count(char letter) {
    int count = 0;
    while (find(letter, count)->letter) count++;
    return count;
}

const char *ld_name(char letter, int k) { return find(letter, k)->name; }
int ld_value(char letter, int k) { return *find(letter, k)->at; }
int ld_has_pwm(void) { return ld_count('P') > 0; }
