LDmicro0.1
MICRO=Interpretable Byte Code
CYCLE=10000

PROGRAM
RUNG
    PARALLEL
        SERIES
            CONTACTS Xa 0
            CONTACTS Xb 0
        END
        CONTACTS Xc 0
    END
    COIL Yd 0 0 0
END
