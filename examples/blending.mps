* Fuel blending: three crudes into one fuel, as a planner exports it.
NAME          BLENDING
ROWS
 N  COST
 N  WEIGHT
 L  STORAGE
 L  SULFUR
 G  OCTANE
 E  VOLUME
 E  LOADED
COLUMNS
    LIGHT     COST            31.25    STORAGE             1
    LIGHT     WEIGHT           0.82    SULFUR           -0.4
    LIGHT     OCTANE              6    VOLUME              1
    LIGHT     LOADED              1
    MEDIUM    COST             27.5    STORAGE             1
    MEDIUM    WEIGHT           0.86    SULFUR            0.1
    MEDIUM    OCTANE             -1    VOLUME              1
    HEAVY     COST             19.9    STORAGE             1
    HEAVY     WEIGHT           0.93    SULFUR            1.3
    HEAVY     OCTANE             -7    VOLUME              1
    ADDITIVE  COST             1D2     OCTANE            2E1
    ADDITIVE  VOLUME            .05
    SOLD      COST           -45.00    VOLUME             -1
    DRAWN     COST             1.5     VOLUME             -1
    BALANCE   LOADED             -1
    SHIFT     COST               0     STORAGE            .5
RHS
    PLAN      STORAGE          900     OCTANE              0
    PLAN      LOADED           120     COST            -2500
    PLAN      WEIGHT           700
    OTHER     STORAGE          100
RANGES
    SPREAD    STORAGE          650     OCTANE           4000
    SPREAD    LOADED           -60     WEIGHT             10
BOUNDS
 UP LIMIT     LIGHT           400
 LO LIMIT     MEDIUM           50
 UP LIMIT     MEDIUM        1E+30
 MI LIMIT     HEAVY
 UP LIMIT     HEAVY           350
 FX LIMIT     ADDITIVE       12.5
 PL LIMIT     SOLD
 UP LIMIT     DRAWN           -10
 LO LIMIT     DRAWN           -60
 FR LIMIT     BALANCE
 UP LIMIT     SHIFT          1E30
 UP SPARE     LIGHT             1
ENDATA
