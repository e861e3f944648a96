# Draws docs/for/fork-bomb.svg from the counts.csv of docs/for/container-simulator.md, which lies in this folder:
#     gnuplot docs/for/fork-bomb.gp > docs/for/fork-bomb.svg
set terminal svg size 720,320 font "sans-serif,12" background rgb "white"
set datafile separator ","
set xlabel "seconds"
set ylabel "tasks of all containers"
set y2label "tasks of web-7"
set ytics nomirror
set y2tics
set yrange [0:25000]
set y2range [0:100]
set key top left
plot "counts.csv" using 1:2 skip 1 with steps lw 2 title "all", "" using 1:8 skip 1 axes x1y2 with steps lw 2 title "web-7"
