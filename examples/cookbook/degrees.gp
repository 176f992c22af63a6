# Requests by degree, from the rows of degrees.szl as TSV on standard input: a map of points on standard output.
set terminal pngcairo size 720,400
set xrange [-180:180]
set yrange [-90:90]
set xtics 60
set ytics 30
set grid
set xlabel "longitude"
set ylabel "latitude"
set logscale cb
set palette defined (0 "#9ecae1", 1 "#08306b")
plot "/dev/stdin" using 3:2:4 with points pointtype 5 pointsize 0.5 palette notitle
