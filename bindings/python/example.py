"""Reads an exchange file by the names of its columns: its counts, profiles and salinities, corrections, its rows after them, and a refusal with its line and
column."""

import itertools
import sys

import pochahuic


def correct(file, line):
    """Makes the correction of one list line, in the column that the line names."""
    order = pochahuic.read_list_line(line)
    try:
        column = file.column(order.name)
        file.correct(order.row, column, order.millionths, order.decimals, order.flag)
    except pochahuic.Refused as refused:
        print("not corrected: %s" % refused)
        return
    flag = " flag %d" % file.flags(order.name)[order.row - 1] if order.name + "_FLAG_W" in file.names() else ""
    print("corrected: row %d, %s %.4f%s" % (order.row, order.name, file.decimal(order.row, column), flag))


def main(path):
    with open(path, "rb") as source:
        file = pochahuic.File(source.read())
    checked = file.check()
    kind = "CTD" if checked.kind == "CTD" else "bottle"
    print("%s file: %d columns, %d rows, %d profiles, %d missing" % (kind, checked.columns, checked.rows, checked.profiles, checked.missing))
    for k in range(1, checked.profiles + 1):
        profile = file.profile(k)
        last = profile.first + profile.rows - 1
        keys = ", ".join("%s %s" % (name, file.station(k, name).decode()) for name in ("EXPOCODE", "STNNBR"))
        time = profile.time and "%02d:%02d" % profile.time
        print("profile %d: rows %d to %d, %s, CASTNO %d, DATE %08d, time %s" % (k, profile.first, last, keys, profile.castno, profile.date, time))

    salinity = file.column("SALNTY")
    print("SALNTY: column %d, unit %s, flags in column %d" % (salinity, file.unit(salinity), file.column("SALNTY_FLAG_W")))
    for value, flag in zip(file.values("SALNTY"), file.flags("SALNTY")):
        print("SALNTY: %s flag %d" % (value if value is None else "%.4f" % value, flag))
    correct(file, b"2\tSALNTY\t35.1301\t2\n")
    correct(file, b"3\tCTDPRS\t10.8\t0\n")
    correct(file, b"1\tSALNT\t35.1301\t2\n")
    correct(file, b"1\tSALNTY\t-999.0000\t9\n")

    # the rows as an importer takes them: every cell without the spaces at its ends, in one walk
    for row, cells in itertools.groupby(file.walk(), lambda cell: cell.row):
        print("row %d: %s" % (row, ",".join(cell.text.decode() for cell in cells)))

    # a blank salinity is refused, with its place
    start, length = file.place(1, salinity)
    data = file.bytes()
    try:
        pochahuic.File(data[:start] + b" " * length + data[start + length :])
    except pochahuic.Refused as refused:
        print("refused: %s" % refused)


main(sys.argv[1])
