# Draws study.svg of the file table, whose columns are those of rows.sh: gnuplot picture.gnuplot. A dot is a script. Above stand the dark rows by the
# length of the failure, and as an edge the most rows that a failure can spoil beside a line that stays whole; below the frames that were lost or
# refused, by the dark rows. There is a column of panels for each number of lines, and the key above all.
set terminal svg size 1100,780 font "sans-serif,14" background "white"
set output "study.svg"
lag = 2
most = 256 + 16 * lag
edge(length) = length + 39 < most ? length + 39 : most
is(container, lines, load) = strcol(1) eq container && $2 == lines && $3 == load
color(container, load) = container eq "vc4" ? (load == 90 ? "#b2182b" : load == 50 ? "#e07a00" : "#2166ac") : \
    load == 90 ? "#ef9a9a" : load == 50 ? "#fdc473" : "#8fc1e3"
set multiplot layout 2,3 columnsfirst margins 0.085,0.985,0.085,0.88 spacing 0.055,0.13
set grid linecolor "#dddddd"
set key off
do for [lines in "1 4 16"] {
    unset logscale
    set title lines eq "1" ? "1 line" : lines." lines"
    set xlabel "length of the failure in ticks of 125 µs"
    set ylabel lines eq "1" ? "dark rows" : ""
    set xrange [0:400]
    set xtics 0,100,400
    set yrange [0:(lines eq "1" ? 800 : 340)]
    if (lines ne "1") { set label 1 "min(length + 39, 256 + 16 · lag)" at 395,308 right }
    plot "table" using ($2 == lines ? $4 : NaN):28:(2.7):(0) with vectors nohead linewidth 2 linecolor rgb "#777777", \
        (lines eq "1" ? NaN : edge(x)) with lines linewidth 2 linecolor rgb "#000000"
    unset label
    unset title
    set xlabel "dark rows"
    set ylabel lines eq "1" ? "frames lost or refused" : ""
    set xrange [10:800]
    set xtics (10, 20, 50, 100, 200, 400, 800)
    set yrange [1:10000]
    set logscale xy
    plot for [container in "vc4 vc3"] for [load in "10 50 90"] "table" \
        using (is(container, lines + 0, load + 0) ? $28 : NaN):($12 + $18):(0.03 * $28):(0) with vectors nohead linewidth 2 \
        linecolor rgb color(container, load + 0)
}
unset logscale
unset xlabel
unset ylabel
unset tics
unset border
set lmargin at screen 0.085
set rmargin at screen 0.985
set bmargin at screen 0.93
set tmargin at screen 0.99
set key center center horizontal samplen 1
plot for [container in "vc4 vc3"] for [load in "10 50 90"] NaN with points pointtype 5 pointsize 0.6 linecolor rgb color(container, load + 0) \
    title (container eq "vc4" ? "VC-4, " : "VC-3, ").load." %"
unset multiplot
