# How marking grows with the answer and vetting with the pattern: the figures of BENCHMARKS.md.
# Made again by: gnuplot growth.gp > growth.svg
set terminal svg size 900,360 font "Helvetica,14" background "white"
set multiplot layout 1,2 margins 0.08,0.98,0.17,0.88 spacing 0.10
set grid lc rgb "#dddddd" lw 1
set border 3 lc rgb "#555555"
set tics nomirror
set ylabel "microseconds" offset 1,0
set key top left Left reverse samplen 2
set style line 1 lc rgb "#1f6fb4" lw 2 pt 7 ps 0.7
set style line 2 lc rgb "#999999" lw 1.5 dt 2

set title "Marking: in step with the letters"
set xlabel "letters of the answer"
set xrange [0:4300]
set yrange [0:950]
set xtics 1024
plot 3 + 0.19*x ls 2 title "3 + 0.19 for each letter", "marking.dat" with linespoints ls 1 title "measured"

set title "Vetting: up to the fourth power of the positions"
set xlabel "positions of the pattern"
set xrange [0:62]
set yrange [0:975]
set xtics 10
set ytics 150
plot 763.9*(x/60)**4 ls 2 title "fourth power, through the last point", "vetting.dat" with linespoints ls 1 title "measured"
unset multiplot
