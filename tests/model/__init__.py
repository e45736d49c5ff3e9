"""An executable model of the file guard: the rules once more, apart from the definitions and the code.

It is written from the requirements alone, and where they are open from the readings that docs/DECISIONS.md gives. A
paragraph that is cited, as in SPECIFICATION 5, is where docs/SPECIFICATION.md has the same rule.

    rules, image            the rules that need no tables: limits, forms, paths, requests, listings; the saved image
    events                  events and outcomes, with their text
    tree                    the machine: the reference tree, which keeps bytes, the guard, which keeps digests, and the
                            guard that is read-only
    host, lies              an honest host with a tree of its own, and the wrong replies that a host may give
    calls, edges            the bytes of calls; images at the edge of soundness
    recording, generate     a list of events in the making; lists from a seed, those of growing files and of maps
    longer                  the same lists in longer buffers
    script                  lists written by hand with the answers that the requirements ask for:
    trials, numbers           its trials; each number, each two that stand beside each other
    pages, maps               the page rules, byte by byte; maps, address by address
    readonly                  the read-only guard
    dishonest                 every dishonest reply
    transcripts             all of these with their answers as a file
    desk, compare           the line protocol of deskrun; the model beside a program that speaks it
    mutations               wrong models, each of which the generated lists must tell from the right one

`run` runs every test. Programs are started from the directory above: python3 -m model.desk < lines
"""
