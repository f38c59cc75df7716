LDmicro0.1
MICRO=Interpretable Byte Code
CYCLE=10000

PROGRAM
RUNG
    READ_ADC Aa
END
RUNG
    EQU Aa 2
    COIL Yequ 0 0 0
END
RUNG
    NEQ Aa 2
    COIL Yneq 0 0 0
END
RUNG
    GRT Aa 2
    COIL Ygrt 0 0 0
END
RUNG
    GEQ Aa 2
    COIL Ygeq 0 0 0
END
RUNG
    LES Aa 2
    COIL Yles 0 0 0
END
RUNG
    LEQ Aa 2
    COIL Yleq 0 0 0
END
