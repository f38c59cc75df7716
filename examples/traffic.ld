LDmicro0.1
MICRO=Interpretable Byte Code
CYCLE=10000
CRYSTAL=4000000
BAUD=2400

IO LIST
    Xrun at 2
    Yred at 6
    Ygreen at 7
    Yamber at 8
    Ygo at 17
END

PROGRAM
RUNG
    CONTACTS Xrun 0
    CONTACTS Rtick 1
    TON Ttick 20000
    COIL Rtick 0 0 0
END
RUNG
    CONTACTS Rtick 0
    CTC Cstep 2
END
RUNG
    EQU Cstep 0
    COIL Yred 0 0 0
END
RUNG
    EQU Cstep 1
    COIL Ygreen 0 0 0
END
RUNG
    EQU Cstep 2
    COIL Yamber 0 0 0
END
RUNG
    COMMENT stop and go
END
RUNG
    PARALLEL
        CONTACTS Yred 0
        CONTACTS Yamber 0
    END
    COIL Rstop 0 0 0
END
RUNG
    CONTACTS Rstop 1
    COIL Ygo 0 0 0
END
