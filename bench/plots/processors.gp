# Operations a second of all threads together on a simulated machine, a thread for each processor: a field for each mix; both axes are
# logarithmic. The fourth column of `data` is the number of processors, the fifth the millions of operations a second.
load folder."/style.gp"
set terminal svg size 960,620 font "Helvetica,13" background rgb "#ffffff"
set output picture
series = '"before" "pairs" "pairs and kept" "queue and kept" "plain"'
names = '"as before" "pauses between pairs" "the same, slots kept" "the library: a queue, slots kept" "CITRUS in plain C++"'
styles = "4 2 5 1 9"
mixes = '"$2 == 98 && $3 == 200000" "$2 == 90 && $3 == 200000" "$2 == 90 && $3 == 20000" "$2 == 50 && $3 == 100000"'
titles = '"98 of 100 gets, 200,000 keys" "90 of 100 gets, 200,000 keys" "90 of 100 gets, 20,000 keys" "50 of 100 gets, 100,000 keys"'
set multiplot
unset key
set logscale xy
set xrange [3.3:116]
set xtics (4, 16, 48, 96)
set yrange [0.2:500]
set ytics ("0.2" 0.2, "1" 1, "5" 5, "20" 20, "100" 100, "500" 500)
do for [i = 1:words(mixes)] {
    set lmargin at screen (i % 2 == 1 ? 0.075 : 0.435)
    set rmargin at screen (i % 2 == 1 ? 0.375 : 0.735)
    set tmargin at screen (i <= 2 ? 0.945 : 0.465)
    set bmargin at screen (i <= 2 ? 0.585 : 0.105)
    set title word(titles, i)
    if (i > 2) { set xlabel "simulated processors, a thread each" } else { unset xlabel }
    if (i % 2 == 1) { set ylabel "million operations a second" } else { unset ylabel }
    plot for [j = 1:words(series)] rows(word(series, j), word(mixes, i), 4) using 4:5 with linespoints ls (0 + word(styles, j)) notitle
}
unset title; unset border; unset tics; unset grid; unset xlabel; unset ylabel; unset logscale
set lmargin at screen 0.75
set rmargin at screen 0.995
set key at graph 0.02,1 left top Left reverse samplen 2 spacing 1.5 maxrows 8
set xrange [0:1]
set yrange [0:1]
plot for [j = 1:words(names)] NaN with linespoints ls (0 + word(styles, j)) title word(names, j)
unset multiplot
