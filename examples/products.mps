NAME          PRODUCTS
ROWS
 N  LOSS
 L  MILL
 L  OVEN
 L  CREW
COLUMNS
    BREAD     LOSS      -5
    BREAD     MILL      2
    BREAD     OVEN      3
    BREAD     CREW      1
    ROLLS     LOSS      -4
    ROLLS     MILL      1
    ROLLS     OVEN      2
    ROLLS     CREW      3
    CAKES     LOSS      -7
    CAKES     MILL      2
    CAKES     OVEN      4
    CAKES     CREW      2
RHS
    WEEK      MILL      100
    WEEK      OVEN      150
    WEEK      CREW      90
ENDATA
