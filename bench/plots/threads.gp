# Operations a second of all threads together, against the number of threads: a field for each mix, the names of the lines in the sixth.
load folder."/style.gp"
set terminal svg size 960,620 font "Helvetica,13" background rgb "#ffffff"
set output picture
series = '"proved first" "C++ first" "plain CITRUS" "best under a lock" "std::map under mutex" '.\
    '"TBB map" "libcds skip list" "libcds Ellen tree"'
names = '"proved tree, first waiter" "the same steps in C++" "CITRUS in plain C++" "the best ordered map under a lock" '.\
    '"std::map under mutex" "TBB map, with tombstones" "libcds skip list" "libcds Ellen tree"'
mixes = "90 50 load 98 100"
titles = '"90 of 100 gets, 20,000 keys" "50 of 100 gets, 1,000 keys" "the operations of load" '.\
    '"98 of 100 gets, 200,000 keys" "gets alone, 20,000 keys"'
set multiplot layout 2,3 margins 0.07,0.985,0.09,0.94 spacing 0.065,0.15
unset key
set xrange [0.7:4.3]
set yrange [0:*]
set xtics (1, 2, 4)
set xlabel "threads" offset 0,0.5
do for [i = 1:words(mixes)] {
    set title word(titles, i)
    if (i == 1 || i == 4) { set ylabel "million operations a second" offset 1.5,0 } else { unset ylabel }
    plot for [j = 1:words(series)] rows(word(series, j), sprintf("$2 == \"%s\"", word(mixes, i)), 4) \
        using 4:(1000.0 * $4 / $7) with linespoints ls j notitle
}
unset title; unset border; unset tics; unset grid; unset xlabel; unset ylabel
set key at graph -0.05,1 left top Left reverse samplen 2 spacing 1.15 maxrows 8
set yrange [0:1]
plot for [j = 1:words(names)] NaN with linespoints ls j title word(names, j)
unset multiplot
