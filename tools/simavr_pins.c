/* Runs a HEX file on simavr's ATmega16. Of each line of its input, which has a letter of a port, a bit and a level, three for each input, it sets the levels
   at the pins; half a period later it prints the levels that the chip drives, a byte for each port from A on.

       simavr_pins FILE FREQUENCY PERIOD     the period of a cycle, in clock cycles */
#include <simavr/sim_avr.h>
#include <simavr/sim_hex.h>
#include <simavr/avr_ioport.h>
#include <stdio.h>
#include <stdlib.h>
#include <string.h>

/* data addresses of PORTA to PORTD; DDRx stands in front of each */
static const int ports[4] = {0x3b, 0x38, 0x35, 0x32};

static void set_levels(avr_t *avr, char *line) {
    for (char *name = strtok(line, " \n"); name; name = strtok(NULL, " \n")) {
        int bit = atoi(strtok(NULL, " \n"));
        int level = atoi(strtok(NULL, " \n"));
        avr_raise_irq(avr_io_getirq(avr, AVR_IOCTL_IOPORT_GETIRQ(name[0]), bit), level);
    }
}

int main(int count, char **words) {
    if (count != 4) return 2;
    uint32_t size, start;
    uint8_t *code = read_ihex_file(words[1], &size, &start);
    avr_t *avr = avr_make_mcu_by_name("atmega16");
    if (!code || !avr) return 3;
    avr_init(avr);
    avr->frequency = atol(words[2]);
    avr->log = LOG_NONE;
    avr_loadcode(avr, code, size, start);
    avr_cycle_count_t period = atol(words[3]), until = period / 2;
    static char line[65536];
    while (fgets(line, sizeof line, stdin)) {
        set_levels(avr, line);
        for (until += period; avr->cycle < until;) {
            int state = avr_run(avr);
            if (state == cpu_Done || state == cpu_Crashed) return 4;
        }
        for (int k = 0; k < 4; k++) printf("%02x%s", avr->data[ports[k]] & avr->data[ports[k] - 1], k < 3 ? " " : "\n");
    }
    return 0;
}
