LDmicro0.1
MICRO=Atmel AVR ATmega16 40-PDIP
CYCLE=10000
CRYSTAL=4000000
BAUD=2400

IO LIST
    Xstart at 1
    Xstop at 2
    Ymotor at 3
END

PROGRAM
RUNG
    PARALLEL
        CONTACTS Xstart 0
        CONTACTS Rrun 0
    END
    CONTACTS Xstop 1
    COIL Rrun 0 0 0
END
RUNG
    CONTACTS Rrun 0
    COIL Ymotor 0 0 0
END
