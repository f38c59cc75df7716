LDmicro0.1
MICRO=Interpretable Byte Code
CYCLE=10000
CRYSTAL=4000000
BAUD=2400

IO LIST
END

PROGRAM
RUNG
    CONTACTS Xbutton 0
    OSR
    COIL Rpress 0 0 0
END
RUNG
    PARALLEL
        SERIES
            CONTACTS Rpress 0
            CONTACTS Ylamp 1
        END
        SERIES
            CONTACTS Rpress 1
            CONTACTS Ylamp 0
        END
    END
    COIL Ylamp 0 0 0
END
