LDmicro0.1
MICRO=Interpretable Byte Code
CYCLE=10000
CRYSTAL=4000000
BAUD=2400

IO LIST
END

PROGRAM
RUNG
    COMMENT up until the door is at the top, or it takes too long
    PARALLEL
        CONTACTS Xbutton 0
        CONTACTS Rmoves 0
    END
    CONTACTS Xtop 1
    CONTACTS Rlate 1
    COIL Rmoves 0 0 0
END
RUNG
    CONTACTS Rmoves 0
    TON Tmoves 30000
    COIL Rlate 0 1 0
END
RUNG
    CONTACTS Xreset 0
    COIL Rlate 0 0 1
END
RUNG
    CONTACTS Rmoves 0
    COIL Yup 0 0 0
END
RUNG
    CONTACTS Rlate 0
    COIL Yalarm 0 0 0
END
