# Prints a trace of writes alone, for the studies: write i, from 0, comes at tick i * step. First each of `all` lines is written once,
# then write i goes to line i mod lines. Its bytes are one of 61 drawn lines, another one each time that a line is written.
# usage: awk -v rows=ROWS -v lines=LINES -v step=TICKS [-v all=LINES] -f writes.awk
BEGIN {
    word = 1
    for (k = 0; k < 61; k++)
        for (part = 0; part < 32; part++) {
            word = (word * 16807) % 2147483647
            bytes[k] = bytes[k] sprintf("%04x", int(word / 1024) % 65536)
        }
    print "tick,op,arg,data"
    for (i = 0; i < rows; i++) {
        line = i < all ? i : i % lines
        printf "%d,W,%d,%s\n", i * step, line, bytes[(int(i / lines) * 7 + line) % 61]
    }
}
