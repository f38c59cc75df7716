"""Prints the tables of errors in CHIPS.md, from the formulas that stand there."""

TIMER = {"PIC": (4, [1, 2, 4, 8]), "AVR": (1, [1, 8, 64, 256, 1024])}
FASTEST = {"PIC": 20_000_000, "AVR": 16_000_000}
CRYSTALS = [1_000_000, 3_579_545, 3_686_400, 4_000_000, 4_194_304, 7_372_800, 8_000_000,
            10_000_000, 11_059_200, 14_745_600, 16_000_000, 20_000_000]
CYCLES = [100, 1_000, 10_000, 100_000]
RATES = [300, 1_200, 2_400, 4_800, 9_600, 19_200, 38_400, 57_600, 115_200]


def timer(chip, cycle, hz):
    """The prescaler and the ticks of a cycle of so many microseconds."""
    clocks, ratios = TIMER[chip]
    for ratio in ratios:
        ticks = cycle * hz // (ratio * clocks * 1_000_000)
        if ticks <= 65536:
            return (ratio, ticks) if ticks else None
    return None


def longest_cycle(chip, hz):
    clocks, ratios = TIMER[chip]
    longest = (65537 * ratios[-1] * clocks * 1_000_000 - 1) // hz
    assert timer(chip, longest, hz) and not timer(chip, longest + 1, hz)
    return longest


def timer_error(chip, cycle, hz):
    setting = timer(chip, cycle, hz)
    if setting is None:
        return "none"
    ratio, ticks = setting
    real = ticks * ratio * TIMER[chip][0] * 1e6 / hz
    return f"{(real - cycle) / cycle * 100:.4f} %"


def baud(chip, hz, rate):
    """The clocks of a bit, as a product of a whole ratio and 16 or 64."""
    for clocks, most in [(16, 4096)] if chip == "AVR" else [(16, 256), (64, 256)]:
        ratio = (hz + clocks // 2 * rate) // (clocks * rate)
        if 1 <= ratio <= most:
            return clocks * ratio
    return None


def baud_error(chip, hz, rate):
    bit = baud(chip, hz, rate)
    return "none" if bit is None else f"{round((hz / bit / rate - 1) * 100, 1) + 0.0:+.1f} %"


def table(chip, columns, cell):
    for hz in [c for c in CRYSTALS if c <= FASTEST[chip]]:
        print(f"| {chip} | {hz:,} |", " | ".join(cell(chip, column, hz) for column in columns), "|")


for chip in TIMER:
    for hz in [c for c in CRYSTALS if c <= FASTEST[chip]]:
        cells = [timer_error(chip, cycle, hz) for cycle in CYCLES]
        print(f"| {chip} | {hz:,} | {longest_cycle(chip, hz):,} |", " | ".join(cells), "|")
for chip in TIMER:
    table(chip, RATES, lambda chip, rate, hz: baud_error(chip, hz, rate))
