LDmicro0.1
MICRO=Interpretable Byte Code
CYCLE=10000
CRYSTAL=4000000
BAUD=2400

IO LIST
END

PROGRAM
RUNG
    COMMENT the emergency stop takes the power from the rungs down to the next MASTER_RELAY
    CONTACTS Xemergency 1
    MASTER_RELAY
END
RUNG
    COMMENT the belt runs from start to stop, and not while the box is full
    PARALLEL
        CONTACTS Xstart 0
        CONTACTS Ybelt 0
    END
    CONTACTS Xstop 1
    CONTACTS Yfull 1
    COIL Ybelt 0 0 0
END
RUNG
    COMMENT each part that comes is tall or short
    CONTACTS Ybelt 0
    CONTACTS Xpart 0
    OSR
    PARALLEL
        SERIES
            CONTACTS Xtall 0
            COIL Rtall 0 0 0
        END
        SERIES
            CONTACTS Xtall 1
            COIL Rshort 0 0 0
        END
    END
END
RUNG
    COMMENT tall parts are pushed off; the pusher stays out for 20 ms more
    CONTACTS Rtall 0
    TOF Tpush 20000
    COIL Ypush 0 0 0
END
RUNG
    COMMENT a box takes three short parts
    CONTACTS Rshort 0
    CTU Cbox 3
    COIL Yfull 0 0 0
END
RUNG
    CONTACTS Xnewbox 0
    RES Cbox
END
RUNG
    COMMENT from here on there is power again
    MASTER_RELAY
END
RUNG
    COMMENT how many short parts are on their way from the first sensor to the box
    CONTACTS Rshort 0
    CTU Cway 1
END
RUNG
    CONTACTS Xdrop 0
    CTD Cway 1
    COIL Yway 0 0 0
END
