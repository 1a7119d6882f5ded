* a plan for two weeks
NAME          plan
OBJSENSE
    MAX
ROWS
 N  profit
 N  note
 L  hours
 G  demand
 E  balance
COLUMNS
    MARK1     'MARKER'                 'INTORG'
    make1     profit           3.25   hours               2
    make1     demand              1   balance             1
    make2     profit            4.5   hours             2.5
    make2     note                1   balance            -1
    MARK2     'MARKER'                 'INTEND'
    store     profit           -.25   balance          -1e0
RHS
    RHS       hours              40   demand              3
RANGES
    RNG       demand              9
BOUNDS
 UP BND       make1              12
 PL BND       make2
 LO BND       store              -5
 UP BND       store              10
ENDATA
