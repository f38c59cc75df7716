LDmicro0.1
MICRO=Interpretable Byte Code
CYCLE=10000
CRYSTAL=4000000
BAUD=2400

IO LIST
END

PROGRAM
RUNG
    COMMENT the sensor's 0 to 1023 are 0 to 341 cm
    READ_ADC Asensor
    DIV level Asensor 3
END
RUNG
    COMMENT filled from 100 cm up to 250 cm
    PARALLEL
        LEQ level 100
        CONTACTS Yvalve 0
    END
    LES level 250
    COIL Yvalve 0 0 0
END
RUNG
    COMMENT from 300 cm on or below 50 cm there is an alarm, which stays until somebody has seen it
    PARALLEL
        GEQ level 300
        LES level 50
    END
    COIL Ralarm 0 1 0
END
RUNG
    CONTACTS Xseen 0
    GEQ level 50
    LES level 300
    COIL Ralarm 0 0 1
END
RUNG
    COMMENT the horn blows when the alarm has lasted for 20 ms
    CONTACTS Ralarm 0
    TON Talarm 20000
    COIL Yhorn 0 0 0
END
RUNG
    COMMENT the filter wants cleaning when the valve was open for 50 ms in all
    CONTACTS Yvalve 0
    RTO Topen 50000
    COIL Yclean 0 0 0
END
RUNG
    CONTACTS Xcleaned 0
    RES Topen
END
RUNG
    CONTACTS Ralarm 0
    COIL Yfine 1 0 0
END
