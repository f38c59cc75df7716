LDmicro0.1
MICRO=Interpretable Byte Code
CYCLE=10000
CRYSTAL=4000000
BAUD=2400

IO LIST
END

PROGRAM
RUNG
    COMMENT a beat every fourth cycle
    CONTACTS Xrun 0
    CONTACTS Rtick 1
    TON Ttick 20000
    COIL Rtick 0 0 0
END
RUNG
    CONTACTS Rtick 0
    CTC Cstep 3
END
RUNG
    COMMENT what each step switches on: 4 is the heater, 2 the pump, 1 the drum
    LOOK_UP_TABLE rest Cstep 4 0 2 5 1 6
END
RUNG
    GEQ rest 4
    PARALLEL
        COIL Yheater 0 0 0
        SUB rest rest 4
    END
END
RUNG
    GEQ rest 2
    PARALLEL
        COIL Ypump 0 0 0
        SUB rest rest 2
    END
END
RUNG
    EQU rest 1
    COIL Ydrum 0 0 0
END
