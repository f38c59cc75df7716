LDmicro0.1
MICRO=Interpretable Byte Code
CYCLE=10000

PROGRAM
RUNG
    CONTACTS Xon 0
    COIL Ylamp 0 1 0
END
RUNG
    CONTACTS Xoff 0
    COIL Ylamp 0 0 1
END
