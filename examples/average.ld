LDmicro0.1
MICRO=Interpretable Byte Code
CYCLE=10000
CRYSTAL=4000000
BAUD=2400

IO LIST
END

PROGRAM
RUNG
    COMMENT at each beat the samples move on by one, and a new one comes
    CONTACTS Xbeat 0
    SHIFT_REGISTER s 4
END
RUNG
    CONTACTS Xbeat 0
    OSR
    READ_ADC Ainput
    MOVE s0 Ainput
END
RUNG
    COMMENT the sum of four samples is 4092 at most
    PARALLEL
        ADD sum s0 s1
        ADD sum sum s2
        ADD sum sum s3
        DIV average sum 4
    END
END
RUNG
    GRT average 512
    COIL Yhigh 0 0 0
END
