"""Functions for benchmarks, each with its fewest steps over all operators, and a table for each output: one digit
per row, from row 0 on, or - for a don't-care."""

SMALL = [
    ("xor", 1, "0110"),
    ("median of three", 4, "00010111"),
    ("full adder", 5, "01101001 00010111"),
    ("xor of four", 3, "0110100110010110"),
    ("two bits less than two", 5, "0111001100010000"),
]

LARGE = [
    ("xor of five", 4, "01101001100101101001011001101001"),
    ("sort of three", 6, "01111111 00010111 00000001"),
    ("sum of two numbers of two bits", 7, "0101101001011010 0011011011001001 0000000100110111"),
    ("product of two numbers of two bits", 7, "0000010100000101 0000001101010110 0000000000110010 0000000000000001"),
    ("all equal of five", 7, "10000000000000000000000000000001"),
    ("and-or of six", 5, "0001000100011111000100010001111100010001000111111111111111111111"),
    ("increment of a decimal digit", 7, "0101010101------ 0110011000------ 0001111000------ 0000000110------"),
]
