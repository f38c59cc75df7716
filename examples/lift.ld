LDmicro0.1
MICRO=Interpretable Byte Code
CYCLE=10000
CRYSTAL=4000000
BAUD=2400

IO LIST
END

PROGRAM
RUNG
    COMMENT the floor is the last one whose switch was met
    PARALLEL
        SERIES
            CONTACTS Xat1 0
            MOVE floor 1
        END
        SERIES
            CONTACTS Xat2 0
            MOVE floor 2
        END
        SERIES
            CONTACTS Xat3 0
            MOVE floor 3
        END
    END
END
RUNG
    COMMENT a call is heard where the lift stands with its door shut
    COMMENT SHORT stands where a key switch would, and OPEN where the fourth floor's button will be
    SHORT
    CONTACTS Rgoes 1
    CONTACTS Ydoor 1
    PARALLEL
        SERIES
            CONTACTS Xcall1 0
            MOVE goal 1
        END
        SERIES
            CONTACTS Xcall2 0
            MOVE goal 2
        END
        SERIES
            CONTACTS Xcall3 0
            MOVE goal 3
        END
        SERIES
            OPEN
            MOVE goal 4
        END
    END
END
RUNG
    NEQ goal 0
    NEQ goal floor
    COIL Rgoes 0 0 0
END
RUNG
    CONTACTS Rgoes 0
    GRT goal floor
    COIL Yup 0 0 0
END
RUNG
    CONTACTS Rgoes 0
    LES goal floor
    COIL Ydown 0 0 0
END
RUNG
    COMMENT when it has come to its floor the door opens, for 20 ms more than the one cycle
    CONTACTS Rgoes 0
    OSF
    TOF Tdoor 20000
    COIL Ydoor 0 0 0
END
