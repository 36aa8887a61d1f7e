# Operations a second of all threads together, with as many threads as processors and with more: a field for each mix.
load folder."/style.gp"
set terminal svg size 960,360 font "Helvetica,13" background rgb "#ffffff"
set output picture
series = '"C library first" "C library first in turn" "best under a lock" "TBB map"'
names = '"Citrus" "Citrus, updates in turn" "the best map under a lock" "TBB map, with tombstones"'
styles = "1 2 4 6"
mixes = "90 50"
titles = '"90 of 100 gets, 20,000 keys" "50 of 100 gets, 1,000 keys"'
set multiplot
unset key
set logscale x 2
set xrange [3:85]
set xtics (4, 16, 64)
set yrange [0:*]
set xlabel "threads on four processors"
set tmargin at screen 0.88
set bmargin at screen 0.17
do for [i = 1:2] {
    set lmargin at screen (i == 1 ? 0.075 : 0.42)
    set rmargin at screen (i == 1 ? 0.36 : 0.705)
    set title word(titles, i)
    if (i == 1) { set ylabel "million operations a second" } else { unset ylabel }
    plot for [j = 1:words(series)] rows(word(series, j), sprintf("$2 == %s", word(mixes, i)), 4) \
        using 4:(1000.0 * $4 / $7) with linespoints ls (0 + word(styles, j)) notitle
}
unset title; unset border; unset tics; unset grid; unset xlabel; unset ylabel; unset logscale
set lmargin at screen 0.725
set rmargin at screen 0.99
set key at graph 0.02,1 left top Left reverse samplen 2 spacing 1.5 maxrows 8
set xrange [0:1]
set yrange [0:1]
plot for [j = 1:words(names)] NaN with linespoints ls (0 + word(styles, j)) title word(names, j)
unset multiplot
