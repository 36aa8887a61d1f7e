# Nanoseconds of an operation against the places of the table, of which four have a thread.
load folder."/style.gp"
set terminal svg size 960,400 font "Helvetica,13" background rgb "#ffffff"
set output picture
series = '"C++ first" "C++ second" "C++ third"'
names = '"first waiter" "second waiter" "third waiter"'
styles = "2 5 8"
set logscale x 2
set xrange [0.8:80]
set xtics (1, 2, 4, 8, 16, 32, 64)
set yrange [0:*]
set xlabel "places, of which up to four have a thread"
set ylabel "ns an operation, 50 of 100 gets on 1,000 keys"
set key outside right top Left reverse samplen 2 spacing 1.5
plot for [j = 1:3] rows(word(series, j), "1", 5) using 5:7 with linespoints ls (0 + word(styles, j)) title word(names, j)
