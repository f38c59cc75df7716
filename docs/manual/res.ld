LDmicro0.1
MICRO=Interpretable Byte Code
CYCLE=10000

PROGRAM
RUNG
    CONTACTS Xpart 0
    CTU Cn 9
END
RUNG
    CONTACTS Xreset 0
    RES Cn
END
