# Draws the tables of limits.c in the folder `tables` as radio-*.svg in the folder `plots`.
set terminal svg size 860,500 font "sans-serif,14" background "white"
set datafile separator "|"
set logscale y
set format y "10^{%L}"
set yrange [6e-8:2]
set ytics 1e-6, 10, 1
set ylabel "fraction"
set grid
set key above maxrows 2 samplen 3

set style line 1 lw 2 lc rgb "#0060ad" pt 7
set style line 2 lw 2 lc rgb "#c0392b" pt 5
set style line 3 lw 2 lc rgb "#0060ad" pt 6 dt 2
set style line 4 lw 2 lc rgb "#c0392b" pt 4 dt 2
set style line 5 lw 2 lc rgb "#808080" dt 3

# A zero has no logarithm: it is a point on the row "none", each curve's a little apart.
none = 1.6e-7
set ytics add ("none" none)
seen(x) = x > 0 ? x : NaN
unseen(x, i) = x > 0 ? NaN : none * 1.5 ** (2.5 - i)

names = "'wrong bits' 'slots without a type'"
noise = tables . "/noise"
set output plots . "/radio-noise.svg"
set xlabel "Es/N0, dB"
plot [5.5:20.5] for [i = 1:2] noise using 2:(seen(column(i + 2))) with linespoints ls i title word(names, i), \
    for [i = 1:2] noise using 2:(unseen(column(i + 2), i)) with points ls i notitle, \
    noise using 2:($5 > 1e-6 ? $5 : NaN) with lines ls 5 title "wrong bits, ideal detection"

names = "'wrong bits, 15 dB' 'slots without a type, 15 dB' 'wrong bits, no noise' 'slots without a type, no noise'"
frequency = tables . "/frequency"
set output plots . "/radio-frequency.svg"
set xlabel "frequency offset, Hz"
plot [-2550:2550] for [i = 1:4] frequency using 2:(seen(column((i + 1) % 4 + 3))) with linespoints ls i title word(names, i), \
    for [i = 1:4] frequency using 2:(unseen(column((i + 1) % 4 + 3), i)) with points ls i notitle
