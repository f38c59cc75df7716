LDmicro0.1
MICRO=Interpretable Byte Code
CYCLE=10000
CRYSTAL=4000000
BAUD=2400

IO LIST
END

PROGRAM
RUNG
    COMMENT counts on after the power was off
    PERSIST count
END
RUNG
    CONTACTS Xtick 0
    OSR
    ADD count count 1
END
