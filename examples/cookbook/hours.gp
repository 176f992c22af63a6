# Requests by hour, from the rows of traffic.szl as TSV on standard input: a picture on standard output.
set terminal pngcairo size 640,240
set boxwidth 0.8
set style fill solid
set xlabel "hour"
plot [-1:24] [0:*] "/dev/stdin" using 2:3 with boxes title "requests"
