# How marking grows with the answer and with the pattern, beside two unverified programs, and the ratios of the Monday run.
# Made again by: gnuplot marking.gp > marking.svg
# The data are rows as `make bench PART='growth monday'` prints them.
set terminal svg size 900,780 font "Helvetica,14" background "white"
set multiplot
set grid lc rgb "#dddddd" lw 1
set border 3 lc rgb "#555555"
set tics nomirror
set style line 1 lc rgb "#c0392b" lw 2 pt 5 ps 0.6
set style line 2 lc rgb "#888888" lw 2 pt 7 ps 0.6
set style line 3 lc rgb "#1f6fb4" lw 2 pt 7 ps 0.6

# the upper row, on scales by powers
set tmargin at screen 0.94
set bmargin at screen 0.59
set logscale xy
set key top left Left reverse samplen 2
set ylabel "microseconds, scale by powers of ten"
set yrange [30:300000]
set ytics ("100" 100, "1,000" 1000, "10,000" 10000, "100,000" 100000)

set lmargin at screen 0.12
set rmargin at screen 0.51
set title "Marking: in step with the letters"
set xlabel "letters of the answer; 60 positions, four next"
set xrange [220:4800]
set xtics ("256" 256, "512" 512, "1,024" 1024, "2,048" 2048, "4,096" 4096)
plot "marking-letters.dat" using 1:4 with linespoints ls 1 title "all pairs", \
  "" using 1:3 with linespoints ls 2 title "by sets", "" using 1:2 with linespoints ls 3 title "library"

set lmargin at screen 0.60
set rmargin at screen 0.98
set title "Marking: all pairs grows faster with the positions"
set xlabel "positions of the pattern, four next; 4,096 letters"
set xrange [9:67]
set xtics (10, 20, 30, 40, 50, 60)
unset ylabel
plot "marking-positions.dat" using 1:4 with linespoints ls 1 title "all pairs", \
  "" using 1:3 with linespoints ls 2 title "by sets", "" using 1:2 with linespoints ls 3 title "library"

# the lower row: a bar a pattern, by the best times, its ratio at the right, and a line from the lowest to the highest ratio of a round
unset logscale
unset key
set tmargin at screen 0.44
set bmargin at screen 0.09
set lmargin at screen 0.36
set rmargin at screen 0.93
set title "The Monday run: the library's time / the time of all pairs (the bound is 0.5)"
set xlabel "a bar by the best times, a line from the lowest to the highest round"
set xrange [0:0.06<*]
set xtics 0.01
set yrange [8.6:-0.6]
set y2range [8.6:-0.6]
set ytics auto
set y2tics scale 0
set grid noytics
set style fill solid
set arrow from 0.05, graph 0 to 0.05, graph 1 nohead dt 2 lw 2 lc rgb "#555555" front
set label "a twentieth" at 0.0505, graph 0.06 tc rgb "#555555" front
plot "monday.dat" using ($4/2):0:($4/2):(0.32):ytic(1):y2tic(4) with boxxyerror lc rgb "#1f6fb4", \
  "" using 4:0:5:6 with xerrorbars lc rgb "#222222" lw 1 pt 0
unset multiplot
