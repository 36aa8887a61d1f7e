# Nanoseconds of an operation against the number of keys, at one and at four threads. Where the median of the runs is more than twice the
# least, the least is written beside it.
load folder."/style.gp"
set terminal svg size 960,400 font "Helvetica,13" background rgb "#ffffff"
set output picture
series = '"C++ first" "plain CITRUS" "best under a lock" "std::map under mutex" '.\
    '"TBB map" "libcds skip list" "libcds Ellen tree"'
names = '"a twin of the tree in C++" "CITRUS in plain C++" "best map under a lock" "std::map under mutex" '.\
    '"TBB map" "libcds skip list" "libcds Ellen tree"'
styles = "2 3 4 5 6 7 8"
set multiplot
unset key
set logscale xy
set xrange [700:1400000]
set yrange [40:12000]
set xtics ("10^3" 1000, "10^4" 10000, "10^5" 100000, "10^6" 1000000)
set ytics ("50" 50, "100" 100, "200" 200, "500" 500, "1,000" 1000, "2,000" 2000, "5,000" 5000, \
    "10,000" 10000, "100,000" 100000)
set xlabel "keys, about half of them there"
set tmargin at screen 0.9
set bmargin at screen 0.15
do for [i = 1:2] {
    threads = i == 1 ? 1 : 4
    set lmargin at screen (i == 1 ? 0.095 : 0.435)
    set rmargin at screen (i == 1 ? 0.375 : 0.715)
    set title i == 1 ? "one thread" : "four threads"
    if (i == 1) { set ylabel "ns an operation, 90 of 100 gets" } else { unset ylabel }
    plot for [j = 1:words(series)] rows(word(series, j), sprintf("$4 == %d", threads), 3) \
        using 3:7 with linespoints ls (0 + word(styles, j)) notitle, \
        rows(".*", sprintf("$4 == %d && $7 > 2 * $6", threads), 3) using 3:7:(sprintf("the best run: %.0f", $6)) \
        with labels left offset 0.6,0.6 font ",11" tc rgb "#333333" notitle
}
unset title; unset border; unset tics; unset grid; unset xlabel; unset ylabel; unset logscale
set lmargin at screen 0.73
set rmargin at screen 0.99
set key at graph 0.02,1 left top Left reverse samplen 2 spacing 1.5 maxrows 8
set xrange [0:1]
set yrange [0:1]
plot for [j = 1:words(names)] NaN with linespoints ls (0 + word(styles, j)) title word(names, j)
unset multiplot
