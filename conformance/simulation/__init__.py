"""The parts of simulator.py, written from docs/MACHINE.md and docs/FORMATS.md, without a look at the code, and apart from the package in
clients/python/, whose readers are tried on what this writes."""
