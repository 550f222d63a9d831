\ Two receipts of one car (a, b) go together or stay; of two receipts for one lot (c, d) one goes just when the other
\ stays; at least 37 tons at the least cost. `astrolabe reduce --ties` puts b and d away.
Minimize
 cost: 4 a + 3.5 b + 6 c + 2 e + 9 f
Subject To
 car: a - b = 0
 lot: c + d = 1
 tons: 10 a + 15 b + 20 c + 12 d + 8 e + 30 f >= 37
 yard: a + c + e <= 2
Binaries
 a b c d e f
End
