NAME          WORKSHOP
ROWS
 N  PROFIT
 L  SAWING
 L  PLANING
 L  GLUING
 L  LATHE
 L  SANDING
 L  PAINT
 L  OAK
 L  PINE
 L  STORE
COLUMNS
    CHAIR     PROFIT    -35
    CHAIR     SAWING    4
    CHAIR     PLANING   3
    CHAIR     GLUING    4
    CHAIR     LATHE     6
    CHAIR     SANDING   5
    CHAIR     PAINT     3
    CHAIR     OAK       6
    CHAIR     STORE     2
    STOOL     PROFIT    -18
    STOOL     SAWING    2
    STOOL     PLANING   2
    STOOL     GLUING    2
    STOOL     LATHE     4
    STOOL     SANDING   2
    STOOL     PAINT     2
    STOOL     PINE      5
    STOOL     STORE     1
    BENCH     PROFIT    -52
    BENCH     SAWING    6
    BENCH     PLANING   7
    BENCH     GLUING    5
    BENCH     SANDING   8
    BENCH     PAINT     5
    BENCH     PINE      20
    BENCH     STORE     5
    TABLE     PROFIT    -90
    TABLE     SAWING    9
    TABLE     PLANING   12
    TABLE     GLUING    7
    TABLE     LATHE     4
    TABLE     SANDING   12
    TABLE     PAINT     6
    TABLE     OAK       22
    TABLE     STORE     9
    DESK      PROFIT    -110
    DESK      SAWING    14
    DESK      PLANING   13
    DESK      GLUING    11
    DESK      SANDING   14
    DESK      PAINT     9
    DESK      OAK       16
    DESK      PINE      12
    DESK      STORE     10
    SHELF     PROFIT    -28
    SHELF     SAWING    5
    SHELF     PLANING   4
    SHELF     GLUING    2
    SHELF     SANDING   4
    SHELF     PAINT     4
    SHELF     PINE      14
    SHELF     STORE     3
    CHEST     PROFIT    -75
    CHEST     SAWING    11
    CHEST     PLANING   9
    CHEST     GLUING    9
    CHEST     SANDING   9
    CHEST     PAINT     6
    CHEST     PINE      30
    CHEST     STORE     8
    CRADLE    PROFIT    -64
    CRADLE    SAWING    6
    CRADLE    PLANING   5
    CRADLE    GLUING    8
    CRADLE    LATHE     9
    CRADLE    SANDING   7
    CRADLE    PAINT     5
    CRADLE    OAK       9
    CRADLE    STORE     4
    BED       PROFIT    -120
    BED       SAWING    12
    BED       PLANING   14
    BED       GLUING    10
    BED       LATHE     8
    BED       SANDING   13
    BED       PAINT     8
    BED       OAK       14
    BED       PINE      18
    BED       STORE     14
    FRAME     PROFIT    -9
    FRAME     SAWING    2
    FRAME     PLANING   1
    FRAME     GLUING    1
    FRAME     SANDING   1
    FRAME     PAINT     1
    FRAME     PINE      2
    BOWL      PROFIT    -14
    BOWL      LATHE     5
    BOWL      SANDING   2
    BOWL      PAINT     1
    BOWL      OAK       2
    LADDER    PROFIT    -22
    LADDER    SAWING    4
    LADDER    PLANING   3
    LADDER    GLUING    3
    LADDER    LATHE     2
    LADDER    SANDING   3
    LADDER    PINE      9
    LADDER    STORE     2
RHS
    WEEK      SAWING    480
    WEEK      PLANING   420
    WEEK      GLUING    360
    WEEK      LATHE     240
    WEEK      SANDING   540
    WEEK      PAINT     300
    WEEK      OAK       900
    WEEK      PINE      1500
    WEEK      STORE     260
ENDATA
