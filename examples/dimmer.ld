LDmicro0.1
MICRO=Interpretable Byte Code
CYCLE=10000
CRYSTAL=4000000
BAUD=2400

IO LIST
END

PROGRAM
RUNG
    COMMENT the knob's 0 to 1023 become 0 to 99 percent
    READ_ADC Aknob
    MUL level Aknob 25
END
RUNG
    DIV level level 256
END
RUNG
    COMMENT dark while the switch is off, and below 5 percent
    PARALLEL
        CONTACTS Xon 1
        LES level 5
    END
    MOVE level 0
END
RUNG
    SET_PWM level 1000
END
RUNG
    GRT level 0
    COIL Ylit 0 0 0
END
