#!/bin/sh
# Draws what stands in bench/data as pictures in docs/pictures: seconds beside LinBox, Sage and FLINT, seconds against size, and by workers.
# It needs gnuplot (Debian: gnuplot-nox) and measures nothing.
set -eu
cd "$(dirname "$0")/.."
mkdir -p docs/pictures

# Common to all pictures; the size follows.
head='set style data histograms; set style histogram clustered gap 1; set style fill solid border -1; set grid ytics; set key top left
one = "#2a639c"; four = "#86b1d8"; peer = "#d1442c"; set encoding utf8'

# draw NAME SIZE: a picture by gnuplot's commands on standard input.
draw() {
    { printf 'set terminal svg size %s font "sans-serif,12" background "white"\nset output "docs/pictures/%s.svg"\n%s\n' "$2" "$1" "$head"; cat; } | gnuplot
    echo "docs/pictures/$1.svg"
}

draw linbox 900,420 <<'G'
set datafile missing "-"
set title "The rank, by elimination alone"
set ylabel "seconds"
set logscale y
set yrange [0.003:200]
set xtics rotate by -25
plot "bench/data/rank.txt" using 3:xtic(1) title "spasm, 1 worker" lc rgb one, \
     "" using 4 title "spasm, 4 workers" lc rgb four, "" using 5 title "LinBox" lc rgb peer, \
     "" using 6 title "Sage" lc rgb "#e8a33d"
G

draw flint 1000,360 <<'G'
set title "Beside FLINT, which eliminates as if all were dense: 2000 x 2000"
set xlabel "matrix and modulus"
set ylabel "seconds"
set logscale y
set yrange [0.01:20]
plot "bench/data/flint.txt" using 2:xtic(1) title "spasm, 1 worker" lc rgb one, "" using 3 title "FLINT" lc rgb peer
G

draw workers 900,380 <<'G'
set title "Factors of a dense 2000 x 2000 matrix, the middle of each series"
set xlabel "series (4, 7 and 20 modulo 2^{31} - 1, the others modulo 42013)"
set ylabel "ms"
set yrange [0:2000]
plot "bench/data/workers.txt" using 3:xtic(1) title "1 worker alone" lc rgb one, "" using 4 title "4 workers" lc rgb four
G

draw sizes 760,440 <<'G'
set title "The rank by one worker, against the number of entries"
set key outside bottom center horizontal maxcols 2
set format x "10^{%L}"
set xlabel "entries"
set ylabel "seconds"
set logscale xy
set xrange [10000:10000000]
set yrange [0.003:100]
set grid xtics
plot "< grep ^mk bench/data/rank.txt" using 2:3 with linespoints pt 7 lc rgb one title "matching complexes, elimination alone", \
     "< grep ^ch bench/data/rank.txt" using 2:3 with points pt 5 lc rgb four title "chessboard complexes, elimination alone", \
     "< grep ^random bench/data/sizes.txt" using 3:4 with linespoints pt 9 lc rgb peer title "random squares with 3 a row, text to text", \
     "< grep ^full bench/data/sizes.txt" using 3:4 with linespoints pt 11 lc rgb "#555555" title "full squares, text to text"
G
