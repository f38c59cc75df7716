LDmicro0.1
MICRO=Interpretable Byte Code
CYCLE=10000

PROGRAM
RUNG
    CONTACTS Xa 0
    PARALLEL
        COIL Yfirst 0 0 0
        SERIES
            CONTACTS Yfirst 0
            COIL Ysecond 0 0 0
        END
    END
END
