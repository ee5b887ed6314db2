"""What shows that the server keeps serving and keeps its ledger: a soak test, power cuts and a fuzzer.

    wire.py         requests as bytes, and connections that are ended in the ways that clients end them
    process.py      the server as a process of its own, with its memory and its open descriptors
    bad_clients.py  clients that leave early, stall, hold connections or send what is no request
    soak.py         eight participants, a marker and uploads beside all bad clients; by hand, a part of it in the gate
    recorder.c      records what a process writes, truncates and syncs
    power.py        the states that a power cut may leave of a recording, each opened as a ledger
    mutate.py       inputs changed by chance, from a seed
    targets.py      what the fuzzer calls with an input, and what may come of it
    fuzz.py         the fuzzer over corpus/; by hand for hours, and some seconds of it in the gate

The files test_*.py are what the gate runs. README.md has the commands and the figures.
"""
