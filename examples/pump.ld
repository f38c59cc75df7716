LDmicro0.1
MICRO=Interpretable Byte Code
CYCLE=10000
CRYSTAL=4000000
BAUD=2400

IO LIST
END

PROGRAM
RUNG
    COMMENT from the high float down to the low one
    PARALLEL
        CONTACTS Xhigh 0
        CONTACTS Rwanted 0
    END
    CONTACTS Xlow 0
    COIL Rwanted 0 0 0
END
RUNG
    COMMENT each start is the other pump's turn
    CONTACTS Rwanted 0
    CTC Cturn 1
END
RUNG
    CONTACTS Rwanted 0
    EQU Cturn 1
    COIL Yfirst 0 0 0
END
RUNG
    CONTACTS Rwanted 0
    EQU Cturn 0
    COIL Ysecond 0 0 0
END
