# How many times the nanoseconds of the same steps in C++ the proved tree takes (minima), for each waiter, mix and number of threads.
load folder."/style.gp"
set terminal svg size 960,390 font "Helvetica,13" background rgb "#ffffff"
set output picture
set yrange [*<0.6:1.5<*]
set xrange [0.2:15.8]
set ylabel "proved / C++ (minima)"
set xlabel "threads" offset 0,-1.4
set bmargin 5
set tmargin 3
set rmargin 15
unset xtics
do for [i = 1:15] { set label 100 + i word("1 2 4", (i - 1) % 3 + 1) at i, graph -0.04 center tc rgb "#333333" }
titles = '"90 of 100, 20,000 keys" "50 of 100, 1,000" "load" "98 of 100, 200,000" "gets alone, 20,000"'
do for [i = 1:5] {
    set label 200 + i word(titles, i) at 3 * i - 1, graph -0.105 center tc rgb "#333333"
    if (i < 5) { set arrow 300 + i from 3 * i + 0.5, graph 0 to 3 * i + 0.5, graph 1 nohead lc rgb "#dddddd" }
}
set arrow 1 from graph 0, first 1 to graph 1, first 1 nohead lc rgb "#333333" lw 1.2
set arrow 2 from graph 0, first 1.3 to graph 1, first 1.3 nohead lc rgb "#333333" dt 2
set label 1 "1.3 times" at graph 1.01, first 1.3 tc rgb "#333333"
set label 2 "as fast as C++" at graph 1.01, first 1 tc rgb "#333333"
set key above left Left reverse samplen 0.5 horizontal width 3
plot for [j = 1:3] data using ($1 + 0.2 * (j - 2)):(column(j + 1)) \
    with points ls (j == 1 ? 1 : j == 2 ? 4 : 3) ps 1.1 title word("first second third", j)." waiter"
