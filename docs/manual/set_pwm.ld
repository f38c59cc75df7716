LDmicro0.1
MICRO=Interpretable Byte Code
CYCLE=10000

PROGRAM
RUNG
    READ_ADC Aknob
END
RUNG
    SUB level Aknob 10
END
RUNG
    SET_PWM level 1000
END
