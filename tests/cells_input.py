#!/usr/bin/env python3
"""The stored input of the program: crates/cells/stdin, with a line of every kind.

    cells_input.py ORACLE > crates/cells/stdin      ORACLE is the second implementation, lines_oracle
    ORACLE < crates/cells/stdin > crates/cells/stdout

The answers to the first 65,536 bytes take more than one filling of the output, a code crosses that block's end, and no line feed ends the last line.
"""
import subprocess
import sys

BLOCK = 65536
LENGTHS = [4, 6, 7, 9, 11, 12, 14, 16, 18, 20]
ORDINARY = [b"N31A0000000000000000", b"N30A0000000000000000", b"S31A0000000000000000", b"S30A0000000000000000",
            b"N50J47539B8255341234", b"N36J93078B3101524314", b"N60VB75E9EE377777777", b"S01VB75E9EE377777777"]
POLAR = [pole + b"000" + cell + rest for pole in (b"N", b"S")
         for cell in (b"10", b"13", b"21", b"23", b"30", b"32", b"01", b"02", b"03") for rest in (b"00000000000000", b"3EEEE377777777")]
CAPS = [pole + b"000" + rest for pole in (b"N", b"S")
        for rest in (b"0000000000000000", b"001EEEE377777777", b"000E1EE377777777", b"000000E277777777", b"0000000377777777",
                     b"0000000070777777", b"0000000000717777", b"0000000000001777", b"0000000000000012")]
BAD = [b"n31A", b"N00A", b"N61A", b"N7", b"N71A", b"N6:A", b"N31@", b"N31W", b"N31a", b"n31A0000000000000000",
       b"N0001", b"N00010", b"N00040", b"N000003", b"N000004", b"N00000010", b"N0000000010", b"N00000000001", b"N0000000000010",
       b"N31A\r", b"N31A00\r", b"N31\0", b"\0\0\0\0", b"N31A\0\0", b" N31A", b"N31A ", b"\xff\xfe\xfd\xfc", b"E", b"N", b"NS", b"N31"]


def lines():
    for code in ORDINARY + POLAR + CAPS:
        yield from (code[:n] for n in LENGTHS)
    for code in (ORDINARY[4], POLAR[0], CAPS[0]):
        yield from (code[:k] + bad + code[k + 1:] for bad in (b"F", b"-") for k in range(20))
        yield from (code[:k] for k in range(21))
        yield from (code + b"0" * k for k in (1, 2, 44))
    yield from BAD
    yield from [b""] * 6000


def main():
    written = subprocess.run([sys.argv[1], "--input", "1", "300"], stdout=subprocess.PIPE, check=True).stdout
    text = b"".join(line + b"\n" for line in lines()) + written.rstrip(b"\n") + b"\n"
    text += b"N" * (BLOCK - len(text) - 11) + b"\n"
    text += ORDINARY[5] + b"\n" + b"\r\n" + b"N31A\n\n" + b"S00002\n" + ORDINARY[4]
    sys.stdout.buffer.write(text)


main()
