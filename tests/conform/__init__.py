"""Whether a program is an honest host (docs/INTEGRATION.md, 9 and 10): `./run conform -- PROGRAM`.

    wire        the program: frames, patience, kills
    client      an honest client of it, with the model's tree beside: each reply is judged by the model
    lists       lists from a seed
    covered     what a run has met
    words       calls, requests and replies in words, and the paragraphs that they go by
    __main__    the run, the shortest list that shows a fault, the report
    host        a host that is tried, and that `run` makes wrong in one place at a time
"""
