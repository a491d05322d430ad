* Six months, three products: make, store and hire, to meet the demand of each month at the least cost.
NAME          PLAN
ROWS
 N  COST
 E  BALA1
 E  BALB1
 E  BALC1
 E  BALA2
 E  BALB2
 E  BALC2
 E  BALA3
 E  BALB3
 E  BALC3
 E  BALA4
 E  BALB4
 E  BALC4
 E  BALA5
 E  BALB5
 E  BALC5
 E  BALA6
 E  BALB6
 E  BALC6
 L  HOURS1
 L  HOURS2
 L  HOURS3
 L  HOURS4
 L  HOURS5
 L  HOURS6
 G  CREW1
 G  CREW2
 G  CREW3
 G  CREW4
 G  CREW5
 G  CREW6
 L  STORE
COLUMNS
    MAKEA1    COST              12.5   BALA1                1
    MAKEA1    HOURS1             1.5
    HOLDA1    COST              0.75   BALA1               -1
    HOLDA1    BALA2                1   STORE                1
    MAKEB1    COST             18.75   BALB1                1
    MAKEB1    HOURS1            2.25
    HOLDB1    COST               1.2   BALB1               -1
    HOLDB1    BALB2                1   STORE                1
    MAKEC1    COST                41   BALC1                1
    MAKEC1    HOURS1               4
    HOLDC1    COST               2.5   BALC1               -1
    HOLDC1    BALC2                1   STORE                1
    MEN1      COST               650   HOURS1            -160
    MEN1      CREW1                1
    OVER1     COST               9.5   HOURS1              -1
    NET1      CREW1              0.1   COST                 0
    MAKEA2    COST              12.5   BALA2                1
    MAKEA2    HOURS2             1.5
    HOLDA2    COST              0.75   BALA2               -1
    HOLDA2    BALA3                1   STORE                1
    MAKEB2    COST             18.75   BALB2                1
    MAKEB2    HOURS2            2.25
    HOLDB2    COST               1.2   BALB2               -1
    HOLDB2    BALB3                1   STORE                1
    MAKEC2    COST                41   BALC2                1
    MAKEC2    HOURS2               4
    HOLDC2    COST               2.5   BALC2               -1
    HOLDC2    BALC3                1   STORE                1
    MEN2      COST               650   HOURS2            -160
    MEN2      CREW2                1
    OVER2     COST               9.5   HOURS2              -1
    NET2      CREW2              0.1   COST                 0
    MAKEA3    COST              12.5   BALA3                1
    MAKEA3    HOURS3             1.5
    HOLDA3    COST              0.75   BALA3               -1
    HOLDA3    BALA4                1   STORE                1
    MAKEB3    COST             18.75   BALB3                1
    MAKEB3    HOURS3            2.25
    HOLDB3    COST               1.2   BALB3               -1
    HOLDB3    BALB4                1   STORE                1
    MAKEC3    COST                41   BALC3                1
    MAKEC3    HOURS3               4
    HOLDC3    COST               2.5   BALC3               -1
    HOLDC3    BALC4                1   STORE                1
    MEN3      COST               650   HOURS3            -160
    MEN3      CREW3                1
    OVER3     COST               9.5   HOURS3              -1
    NET3      CREW3              0.1   COST                 0
    MAKEA4    COST              12.5   BALA4                1
    MAKEA4    HOURS4             1.5
    HOLDA4    COST              0.75   BALA4               -1
    HOLDA4    BALA5                1   STORE                1
    MAKEB4    COST             18.75   BALB4                1
    MAKEB4    HOURS4            2.25
    HOLDB4    COST               1.2   BALB4               -1
    HOLDB4    BALB5                1   STORE                1
    MAKEC4    COST                41   BALC4                1
    MAKEC4    HOURS4               4
    HOLDC4    COST               2.5   BALC4               -1
    HOLDC4    BALC5                1   STORE                1
    MEN4      COST               650   HOURS4            -160
    MEN4      CREW4                1
    OVER4     COST               9.5   HOURS4              -1
    NET4      CREW4              0.1   COST                 0
    MAKEA5    COST              12.5   BALA5                1
    MAKEA5    HOURS5             1.5
    HOLDA5    COST              0.75   BALA5               -1
    HOLDA5    BALA6                1   STORE                1
    MAKEB5    COST             18.75   BALB5                1
    MAKEB5    HOURS5            2.25
    HOLDB5    COST               1.2   BALB5               -1
    HOLDB5    BALB6                1   STORE                1
    MAKEC5    COST                41   BALC5                1
    MAKEC5    HOURS5               4
    HOLDC5    COST               2.5   BALC5               -1
    HOLDC5    BALC6                1   STORE                1
    MEN5      COST               650   HOURS5            -160
    MEN5      CREW5                1
    OVER5     COST               9.5   HOURS5              -1
    NET5      CREW5              0.1   COST                 0
    MAKEA6    COST              12.5   BALA6                1
    MAKEA6    HOURS6             1.5
    HOLDA6    COST              0.75   BALA6               -1
    HOLDA6    STORE                1
    MAKEB6    COST             18.75   BALB6                1
    MAKEB6    HOURS6            2.25
    HOLDB6    COST               1.2   BALB6               -1
    HOLDB6    STORE                1
    MAKEC6    COST                41   BALC6                1
    MAKEC6    HOURS6               4
    HOLDC6    COST               2.5   BALC6               -1
    HOLDC6    STORE                1
    MEN6      COST               650   HOURS6            -160
    MEN6      CREW6                1
    OVER6     COST               9.5   HOURS6              -1
RHS
    DEMAND    BALA1               40   BALB1               25
    DEMAND    BALC1               10   BALA2               55
    DEMAND    BALB2               30   BALC2               15
    DEMAND    BALA3               60   BALB3               45
    DEMAND    BALC3               20   BALA4               70
    DEMAND    BALB4               40   BALC4               25
    DEMAND    BALA5               50   BALB5               35
    DEMAND    BALC5               20   BALA6               45
    DEMAND    BALB6               30   BALC6               15
    DEMAND    CREW1                2   CREW2                2
    DEMAND    CREW3                2   CREW4                2
    DEMAND    CREW5                2   CREW6                2
    DEMAND    STORE              400   COST             -1200
RANGES
    SPREAD    CREW1                6   CREW2                6
    SPREAD    CREW3                6   CREW4                6
    SPREAD    CREW5                6   CREW6                6
    SPREAD    HOURS1             200   HOURS2             200
    SPREAD    HOURS3             200   HOURS4             200
    SPREAD    HOURS5             200   HOURS6             200
BOUNDS
 UP LIMIT     OVER1               40
 MI LIMIT     NET1
 UP LIMIT     NET1                10
 UP LIMIT     OVER2               40
 MI LIMIT     NET2
 UP LIMIT     NET2                10
 UP LIMIT     OVER3               40
 MI LIMIT     NET3
 UP LIMIT     NET3                10
 UP LIMIT     OVER4               40
 MI LIMIT     NET4
 UP LIMIT     NET4                10
 UP LIMIT     OVER5               40
 MI LIMIT     NET5
 UP LIMIT     NET5                10
 UP LIMIT     OVER6               40
 FX LIMIT     HOLDA6               5
 FX LIMIT     HOLDB6               5
 FX LIMIT     HOLDC6               5
 LO LIMIT     MEN1                 1
ENDATA
