LDmicro0.1
MICRO=Interpretable Byte Code
CYCLE=10000

PROGRAM
RUNG
    COMMENT the door's motor
    CONTACTS Xa 0
    COIL Yb 0 0 0
END
