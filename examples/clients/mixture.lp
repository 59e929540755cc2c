\ A mixture of paints: the cheapest that has the colour, in whole tins.
Minimize
 cost: 4.35 red + 3.9 blue + 2.75 white(matt) + 12.5 order#2 + 1.2
Subject To
 litres: 2.5 red + 2.5 blue + 5 white(matt) >= 37.3
 tint: 0.4 red - 0.25 blue = 0.3
 dark: red + blue >= 3.5
 far: blue - 8 order#2 <= 4
Bounds
 red <= 20
 1 <= blue <= 20
 white(matt) <= 6.5
Generals
 red blue white(matt)
Binaries
 order#2
End
