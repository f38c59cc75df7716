LDmicro0.1
MICRO=Interpretable Byte Code
CYCLE=10000
CRYSTAL=4000000
BAUD=2400

IO LIST
END

PROGRAM
RUNG
    UART_RECV key
    COIL Rkey 0 0 0
END
RUNG
    COMMENT the answer to a key that no rung below knows
    CONTACTS Rkey 0
    MOVE answer '!'
END
RUNG
    COMMENT 1 switches the lamp on, and 0 off
    CONTACTS Rkey 0
    EQU key '1'
    PARALLEL
        COIL Ylamp 0 1 0
        MOVE answer '+'
    END
END
RUNG
    CONTACTS Rkey 0
    EQU key '0'
    PARALLEL
        COIL Ylamp 0 0 1
        MOVE answer '-'
    END
END
RUNG
    COMMENT ? asks whether it is on
    CONTACTS Rkey 0
    EQU key '?'
    PARALLEL
        MOVE answer 'n'
        SERIES
            CONTACTS Ylamp 0
            MOVE answer 'y'
        END
    END
END
RUNG
    CONTACTS Rkey 0
    UART_SEND answer
END
