* Every kind of row: <=, >=, =, two ranges, one row that says nothing; a negative lower bound.
NAME          RANGES
ROWS
 N  COST
 L  MOST
 G  LEAST
 E  EXACT
 L  SPAN
 G  SPAN2
 N  NOTHING
COLUMNS
    MARKER                 'MARKER'                 'INTORG'
    X         COST               2.5   MOST                 3
    X         LEAST               -1   SPAN                 2
    Y         COST                -1   MOST                 2
    Y         EXACT                1   SPAN2                1
    Z         COST                 3   LEAST                2
    Z         EXACT               -1   SPAN                 1
    Z         NOTHING              7
    W         COST                -4   SPAN2                1
    W         MOST                 1
    MARKER                 'MARKER'                 'INTEND'
RHS
    RHS       MOST                 4   LEAST               -1
    RHS       EXACT                0   SPAN                 2
    RHS       SPAN2               -2
RANGES
    RNG       SPAN                 3   SPAN2                4
BOUNDS
 UP BND       X                    1
 UP BND       Y                    1
 UP BND       Z                    1
 LO BND       W                   -3
 UP BND       W                    6
ENDATA
