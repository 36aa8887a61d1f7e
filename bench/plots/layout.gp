# What it makes that words stand apart: nanoseconds of an operation at four threads, first waiter.
load folder."/style.gp"
set terminal svg size 960,380 font "Helvetica,13" background rgb "#ffffff"
set output picture
set style data histograms
set style histogram clustered gap 1.2
set style fill solid 0.9 border rgb "#ffffff"
set boxwidth 0.95
set yrange [0:*]
set xrange [-0.6:4.6]
set ylabel "ns an operation, four threads (medians)"
set key outside right top Left reverse samplen 1.2 spacing 1.5
set xtics scale 0 ("90 of 100 gets\n20,000 keys" 0, "50 of 100 gets\n1,000 keys" 1, "the operations\nof load" 2, \
    "98 of 100 gets\n200,000 keys" 3, "gets alone\n20,000 keys" 4)
set bmargin 4
names = '"C++, words packed" "C++, words apart" "proved tree before" "proved tree" "best map under a lock" "TBB map"'
colors = "#b0b0b0 #56b4e9 #009e73 #0072b2 #d55e00 #cc79a7"
# The proved tree of another commit has the fourth column, where it was measured.
shown = before ? "1 2 3 4 5 6" : "1 2 4 5 6"
plot for [i = 1:words(shown)] data using (column(1 + word(shown, i))) \
    lc rgb word(colors, 0 + word(shown, i)) title word(names, 0 + word(shown, i))
