# Writes a script of one line: frames -v frames=256 -v octets=9600 -v ticks=1000000, and with -v every=40 each due so many ticks after
# the one before. The octets come from a fixed sequence.
BEGIN {
    state = 1
    printf "lines 1\ndelays 0\nring 1\nlag 1\nticks %d\nadd 0 0\n", ticks
    for (i = 0; i < frames; i++) {
        line = "frame " i * every " "
        for (k = 0; k < octets; k++) {
            state = (state * 16807) % 2147483647
            line = line sprintf("%02x", state % 256)
        }
        print line
    }
}
