"""What the tools share, in Python 3 without other packages.

tool      the frame of a tool: its words, its help, its exit status, files that are read and written, runs of the program
netlist   the cards of a netlist with their lines, its cells, their transistors and instances
flat      the circuit of a cell with all instances unrolled, each name with its path
known     the nets of a circuit whose bits are known before anything is solved, and its parts
resistors resistors as wires, and which nets are supplies by their usual names
includes  a netlist with the files that its .include cards name
sources   the lines of netlists as other tools write them
rules     the lines of a rules file, and what they say of supplies, kinds, levels, holds and keepers
models    the models of a BLIF file, or of one in Verilog
modules   modules of gate-level Verilog as models
verdicts  the lines that the program prints
values    the bits of a circuit and its model at one valuation
paths     the conducting paths of a circuit at one valuation
picture   a picture of the transistors about a net
"""
