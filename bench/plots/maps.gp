# Operations a second of all threads together, of the library in C and in Rust and of other maps: a field for each mix.
load folder."/style.gp"
set terminal svg size 960,340 font "Helvetica,13" background rgb "#ffffff"
set output picture
series = '"C library first" "citrus_map first" "DashMap" "TBB map" "BTreeMap best" "std::map best"'
names = '"Citrus in C" "Citrus in Rust" "DashMap, without order" "TBB map, with tombstones" "BTreeMap under a lock" "std::map under a lock"'
styles = "1 2 3 6 4 5"
mixes = "98 90 50"
titles = '"98 of 100 gets, 200,000 keys" "90 of 100 gets, 20,000 keys" "50 of 100 gets, 1,000 keys"'
set multiplot
unset key
set xrange [0.7:4.3]
set yrange [0:27]
set xtics (1, 2, 4)
set xlabel "threads"
set tmargin at screen 0.88
set bmargin at screen 0.18
do for [i = 1:3] {
    set lmargin at screen (0.075 + 0.237 * (i - 1))
    set rmargin at screen (0.265 + 0.237 * (i - 1))
    set title word(titles, i) font ",12"
    if (i == 1) { set ylabel "million operations a second" } else { unset ylabel }
    plot for [j = 1:words(series)] rows(word(series, j), sprintf("$2 == %s", word(mixes, i)), 4) \
        using 4:(1000.0 * $4 / $7) with linespoints ls (0 + word(styles, j)) notitle
}
unset title; unset border; unset tics; unset grid; unset xlabel; unset ylabel
set lmargin at screen 0.765
set rmargin at screen 0.995
set key at graph 0,1 left top Left reverse samplen 1.5 spacing 1.5 maxrows 8
set xrange [0:1]
set yrange [0:1]
plot for [j = 1:words(names)] NaN with linespoints ls (0 + word(styles, j)) title word(names, j)
unset multiplot
