"""The parts of `tools/klvjob`.

words     bytes, counts and quotations as people read them
keys      the key test
numbers   lengths and tags on the wire: BER, BER words, and 1, 2 or 4 bytes
kinds     the kind of a group, told from its key
tables    tag and pack tables: runs of 20-byte records
items     the items of a group, as far as they can be read
jobfile   the four parts of a job file
digits    bytes given as hexadecimal digits
text      the text that `make` reads
make, show, primer   the three commands
console   files, standard input and output, and complaints
cli       the command line

The rules are those of the paper that the regrouper is built to, called 01 here. Nothing in this package decides what
the regrouper answers: it says beforehand, in words, what is likely to be refused.
"""
