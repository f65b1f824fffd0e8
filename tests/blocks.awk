# Turns tetra_rx's lines into those that tetra_tx takes: the blocks' bits are cut out of the 510 where the burst has them.
{
    split($3, type, "="); split($5, bits, "="); b = bits[2]
    if (type[2] == "none") print "empty"
    else if (type[2] == "sync") print "sync " substr(b, 95, 120) substr(b, 253, 246)
    else print type[2] " " substr(b, 15, 230) substr(b, 267, 232)
}
