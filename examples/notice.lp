\ Five warehouse receipts of 30, 25, 20, 15 and 10 tons and up to two lots of 5 tons, for a notice of exactly
\ 55 tons at the least cost. One row is in fractions; every number is whole once it is multiplied by ten.
Minimize
 cost: 31 r30 + 24.5 r25 + 21 r20 + 14 r15 + 11 r10 + 6 lots
Subject To
 tons: 30 r30 + 25 r25 + 20 r20 + 15 r15 + 10 r10 + 5 lots = 55
 receipts: r30 + r25 + r20 + r15 + r10 <= 3
 one_car: r30 + r25 <= 1
 together: r15 - r20 <= 0
 grade: 0.6 r30 + 0.5 r25 + 0.4 r20 + 0.2 r10 >= 0.5
Bounds
 lots <= 2
Generals
 lots
Binaries
 r30 r25 r20 r15 r10
End
