LDmicro0.1
MICRO=Interpretable Byte Code
CYCLE=10000

PROGRAM
RUNG
    UART_RECV got
    COIL Rgot 0 0 0
END
RUNG
    UART_RECV again
    COIL Ragain 0 0 0
END
