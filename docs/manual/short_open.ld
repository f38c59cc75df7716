LDmicro0.1
MICRO=Interpretable Byte Code
CYCLE=10000

PROGRAM
RUNG
    PARALLEL
        CONTACTS Xa 0
        SHORT
    END
    COIL Yshort 0 0 0
END
RUNG
    PARALLEL
        CONTACTS Xa 0
        OPEN
    END
    COIL Yopen 0 0 0
END
