# What all pictures share. `data` and `picture` are given.
set datafile separator ","
set datafile missing ""
set border 3 lc rgb "#666666"
set tics nomirror textcolor rgb "#333333"
set grid ytics lt 1 lc rgb "#e4e4e4"
set title font ",14" offset 0,-0.6
set style line 1 lc rgb "#0072b2" lw 3.5 pt 7 ps 0.7
set style line 2 lc rgb "#56b4e9" lw 2 pt 6 ps 0.7
set style line 3 lc rgb "#009e73" lw 2 pt 5 ps 0.6
set style line 4 lc rgb "#d55e00" lw 2 pt 9 ps 0.8
set style line 5 lc rgb "#e69f00" lw 2 pt 11 ps 0.8
set style line 6 lc rgb "#cc79a7" lw 2 pt 13 ps 0.8
set style line 7 lc rgb "#777777" lw 2 pt 4 ps 0.6
set style line 8 lc rgb "#333333" lw 2 pt 8 ps 0.7
set style line 9 lc rgb "#b0b0b0" lw 2 pt 3 ps 0.6

# The rows of one series, or of all where it is .*, where the condition on awk's fields holds, by the number in a column.
rows(series, condition, column) = sprintf("< awk -F, '(\"%s\" == \".*\" || $1 == \"%s\") && (%s)' %s | sort -t, -k %dn", series, series, condition, data, column)
