LDmicro0.1
MICRO=Interpretable Byte Code
CYCLE=10000

PROGRAM
RUNG
    PERSIST count
END
RUNG
    CONTACTS Xtick 0
    OSR
    ADD count count 257
END
