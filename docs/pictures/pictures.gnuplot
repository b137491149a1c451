# Draws a picture of figures.tsv, whose name is given: gnuplot -e 'picture = "delay"' pictures.gnuplot > delay.svg
set terminal svg size 600,360 name picture font "Helvetica,12" background rgb "white"
set grid xtics ytics lc rgb "#dddddd"

if (picture eq "delay") {
    # From the write of a message into a FIFO to the reply that has its record: which part of all messages took at most so long.
    set title "A message's way into a reply"
    set key right bottom
    set logscale x
    set xlabel "milliseconds"
    set ylabel "messages, percent"
    set yrange [0:100]
    plot "figures.tsv" index picture using 2:1 with lines lw 2 lc rgb "#2f6fab" title "nothing beside it", \
         "figures.tsv" index picture using 3:1 with lines lw 2 lc rgb "#c0703a" title "beside 10,000 messages a second"
}

if (picture eq "growth") {
    # Memory and time of a region that stays, by the count of records of some 480 bytes that it has read.
    set title "A region by its records, of 480 bytes each"
    set key left top
    set xlabel "thousand records"
    set ylabel "memory, MB"
    set y2label "processor seconds to load them"
    set ytics nomirror
    set y2tics
    set xrange [0:*]
    set yrange [0:*]
    set y2range [0:*]
    plot "figures.tsv" index picture using ($1/1000):3 with linespoints lw 2 pt 5 ps 0.6 lc rgb "#2f6fab" title "memory", \
         "figures.tsv" index picture using ($1/1000):2 axes x1y2 with linespoints lw 2 pt 7 ps 0.6 lc rgb "#c0703a" title "processor time"
}

if (picture eq "loading") {
    # Images a second that one stream and four streams bring into sixteen tablets, by the number of workers.
    set title "Loading 100,000 images of 480 bytes"
    set key bottom right
    set xlabel "workers"
    set ylabel "thousand images a second"
    set logscale x 2
    set xrange [0.9:4.4]
    set yrange [0:*]
    set xtics (1, 2, 4)
    plot "figures.tsv" index picture using 1:($3/1000) with linespoints lw 2 pt 5 ps 0.6 lc rgb "#c0703a" title "four streams", \
         "figures.tsv" index picture using 1:($2/1000) with linespoints lw 2 pt 7 ps 0.6 lc rgb "#2f6fab" title "one stream"
}

if (picture eq "reads") {
    # Reads a second of a region that stays, on four threads, and of redis-server, which has the same bytes, by the number of connections.
    set multiplot layout 1,2 title "Reads of records of 480 bytes"
    set key bottom right
    set xlabel "connections"
    set ylabel "thousand reads a second"
    set logscale x
    set xrange [3:1400]
    set yrange [0:*]
    set xtics (4, 50, 256, "1,000" 1000)
    set title "1 line in flight each"
    plot "figures.tsv" index picture using 1:($2/1000) with linespoints lw 2 pt 5 ps 0.6 lc rgb "#2f6fab" title "pnuts", \
         "figures.tsv" index picture using 1:($3/1000) with linespoints lw 2 pt 7 ps 0.6 lc rgb "#c0703a" title "Redis"
    set title "16 lines in flight each"
    plot "figures.tsv" index picture using 1:($4/1000) with linespoints lw 2 pt 5 ps 0.6 lc rgb "#2f6fab" title "pnuts", \
         "figures.tsv" index picture using 1:($5/1000) with linespoints lw 2 pt 7 ps 0.6 lc rgb "#c0703a" title "Redis"
    unset multiplot
}

if (picture eq "turns") {
    # How long a read takes on the one session thread of a region, beside clients that scan 300,000 records without end and are shown none.
    set title "A read beside clients that scan 300,000 records for nothing"
    set key top left Left reverse
    set xlabel "such clients, on the same thread"
    set ylabel "milliseconds to the reply"
    set logscale y
    set xrange [-0.3:3.3]
    set yrange [0.01:5000]
    unset grid
    set grid ytics lc rgb "#dddddd"
    plot "figures.tsv" index picture using 0:4:xtic(1) with linespoints lw 2 pt 5 ps 0.6 lc rgb "#c0703a" title "999 of 1,000 reads", \
         "figures.tsv" index picture using 0:3 with linespoints lw 2 pt 9 ps 0.7 lc rgb "#5a9a4a" title "99 of 100", \
         "figures.tsv" index picture using 0:2 with linespoints lw 2 pt 7 ps 0.6 lc rgb "#2f6fab" title "half of the reads"
}
