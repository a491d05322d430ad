NAME          STOCK
ROWS
 N  COST
 L  SPACE
 L  HOURS
COLUMNS
    BOLTS     COST      2
    BOLTS     SPACE     1
    BOLTS     HOURS     3
    NUTS      COST      1
    NUTS      SPACE     2
RHS
    PLAN      SPACE     40
    PLAN      HOURS     60
ENDATA
