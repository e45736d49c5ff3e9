"""The source papers' attacks on the file interface, and our own, run against the archive; docs/ATTACKS.md is what
they come to.

    host        a host that obeys or disobeys, and then answers as right as it can
    trial       one row run: where the guard stops, or that nothing wrong is served
    replies     rows about what a host replies and does while a guard runs
    lives       rows about saves and loads: rollback, forks, power loss
    renames     rows about renames, of both sorts
    readers     rows about a read-only guard
    outside     what no run can show: out of scope, with the reason
    __main__    the document
"""
