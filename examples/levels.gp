# Draws what `dsedge meter --levels` answers to examples/two_bursts.txt: each packet in the colour that it left with, and the levels
# that it left in the two buckets. The answer is in levels.txt, and the picture, as SVG, goes to standard output:
#
#     dsedge meter --kind trtcm --mode blind --cir 8000 --cbs 1500 --pir 16000 --pbs 3000 --levels \
#         < examples/two_bursts.txt > levels.txt
#     gnuplot examples/levels.gp > levels.svg
#
# Other arrivals and answers are named by -e "arrivals='FILE'; answer='FILE'".
if (!exists("arrivals")) arrivals = 'examples/two_bursts.txt'
if (!exists("answer")) answer = 'levels.txt'

# the lines of both side by side: MOMENT SIZE COLOUR LEFT COMMITTED SECOND, without the accounts
lines = sprintf('< paste -d " " "%s" "%s" | grep "^[0-9]"', arrivals, answer)
shade(left) = left eq 'green' ? 0x2e9e4f : left eq 'yellow' ? 0xe0b000 : 0xd03030

set terminal svg size 720,300 font 'sans-serif,13' background rgb 'white'
set key outside right top
set border 3
set tics nomirror out
set xlabel 'packet'
set ylabel 'bytes'
set autoscale xfixmax
set xrange [0.5:*]
set offsets 0, 0.5, 0, 0
set yrange [0:*]
set xtics 1
plot lines using ($0 + 1):2:(shade(strcol(4))) with impulses linewidth 14 linecolor rgb variable title 'size and colour', \
     lines using ($0 + 1):5 with linespoints linewidth 2 pointtype 7 linecolor rgb '#204a87' title 'committed level', \
     lines using ($0 + 1):6 with linespoints linewidth 2 pointtype 5 dashtype 2 linecolor rgb '#555555' title 'second level'
