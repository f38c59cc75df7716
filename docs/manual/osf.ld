LDmicro0.1
MICRO=Interpretable Byte Code
CYCLE=10000

PROGRAM
RUNG
    CONTACTS Xa 0
    OSF
    COIL Yb 0 0 0
END
