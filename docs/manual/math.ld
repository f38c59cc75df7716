LDmicro0.1
MICRO=Interpretable Byte Code
CYCLE=10000

PROGRAM
RUNG
    PARALLEL
        ADD sum sum 20000
        SUB left 100 sum
        MUL product 300 300
        DIV half -7 2
        DIV none 5 0
    END
END
