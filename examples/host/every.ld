LDmicro0.1
MICRO=Interpretable Byte Code
CYCLE=10000

PROGRAM
RUNG
    COMMENT contacts, coils and one-shots
    CONTACTS Xa 0
    CONTACTS Xb 1
    PARALLEL
        COIL Yplain 0 0 0
        COIL Ynot 1 0 0
        COIL Rset 0 1 0
        SERIES
            OSR
            COIL Rrise 0 0 0
        END
        SERIES
            OSF
            COIL Rfall 0 0 0
        END
    END
END
RUNG
    CONTACTS Xb 0
    COIL Rset 0 0 1
END
RUNG
    COMMENT forms in forms: none, one and several branches
    PARALLEL
    END
    COIL Ynone 0 0 0
END
RUNG
    PARALLEL
        SERIES
        END
    END
    PARALLEL
        SHORT
        OPEN
        SERIES
            CONTACTS Yplain 0
            PARALLEL
                CONTACTS Rset 1
                PARALLEL
                    CONTACTS Rrise 0
                    CONTACTS Xb 0
                END
            END
        END
    END
    COIL Ydeep 0 0 0
END
RUNG
    CONTACTS Xa 0
    TON Ton 30000
    COIL Yon 0 0 0
END
RUNG
    CONTACTS Xa 0
    TOF Tof 30000
    COIL Yoff 0 0 0
END
RUNG
    CONTACTS Xa 0
    RTO Trto 50000
    COIL Yrto 0 0 0
END
RUNG
    CONTACTS Xb 0
    RES Trto
END
RUNG
    CONTACTS Xa 0
    CTU Cup 2
    COIL Yup 0 0 0
END
RUNG
    CONTACTS Xa 0
    CTD Cdown -2
    COIL Ydown 0 0 0
END
RUNG
    CONTACTS Xa 0
    CTC Cround 2
END
RUNG
    CONTACTS Xb 0
    RES Cup
END
RUNG
    COMMENT operands: a variable, a number, a negative number, a character
    PARALLEL
        MOVE n Cround
        MOVE most 32767
        MOVE least -32768
        MOVE letter 'z'
        ADD a n 5
        ADD a2 most 1
        ADD a3 5 n
        SUB s least 1
        SUB s2 7 n
        SUB s3 n letter
        MUL m 300 300
        MUL m2 least least
        MUL m3 n -3
        DIV d letter 7
        DIV d2 -7 2
        DIV d3 letter n
        DIV d4 least -1
        DIV d5 7 0
    END
END
RUNG
    EQU n 1
    COIL Yequ 0 0 0
END
RUNG
    NEQ 2 n
    COIL Yneq 0 0 0
END
RUNG
    GRT n 0
    COIL Ygrt 0 0 0
END
RUNG
    GEQ Cdown -1
    COIL Ygeq 0 0 0
END
RUNG
    LES least most
    COIL Yles 0 0 0
END
RUNG
    LEQ 'A' letter
    COIL Yleq 0 0 0
END
RUNG
    CONTACTS Xa 0
    MOVE place0 letter
END
RUNG
    CONTACTS Xa 0
    SHIFT_REGISTER place 4
END
RUNG
    CONTACTS Xb 0
    SHIFT_REGISTER alone 1
END
RUNG
    PARALLEL
        LOOK_UP_TABLE t n 3 0 -10 20 32767
        LOOK_UP_TABLE t2 Cdown 2 1 1 2
        LOOK_UP_TABLE t3 1 2 0 120 -32768
        LOOK_UP_TABLE t4 n 0 0
    END
END
RUNG
    CONTACTS Xa 0
    READ_ADC Aknob
    READ_ADC Aother
END
RUNG
    CONTACTS Xb 0
    READ_ADC Aother
    SET_PWM Aknob 1000
END
RUNG
    CONTACTS Xa 0
    SET_PWM Cdown 1000
END
RUNG
    UART_RECV got
    COIL Ygot 0 0 0
END
RUNG
    UART_RECV again
    COIL Yagain 0 0 0
END
RUNG
    CONTACTS Xa 0
    UART_SEND least
    COIL Ysend 0 0 0
END
RUNG
    CONTACTS Xb 0
    UART_SEND letter
    COIL Ysend2 0 0 0
END
RUNG
    PARALLEL
        SERIES
            CONTACTS Xa 0
            PERSIST kept
        END
        PERSIST count
    END
END
RUNG
    CONTACTS Xa 0
    OSR
    PARALLEL
        ADD count count 257
        SUB kept kept count
    END
END
RUNG
    CONTACTS Xb 0
    MASTER_RELAY
END
RUNG
    COIL Ymaster 0 0 0
END
RUNG
    MASTER_RELAY
END
RUNG
    COIL Yend 0 0 0
END
