LDmicro0.1
MICRO=Interpretable Byte Code
CYCLE=10000

PROGRAM
RUNG
    CONTACTS Xfill 0
    MOVE Cn 2
END
RUNG
    CONTACTS Xa 0
    CTD Cn 1
    COIL Yb 0 0 0
END
