"""Scripts of bovtrila-stand-in: what a server, or the connection to it, may do to a gate that asks for four touches. For
scripts/tests/test_gate_library.py and scripts/tests/test_gate_sends.py."""

# By what it is: its steps. Behind them each answer is as the rules have it.
TROUBLES = {
    "a right server": "",
    "no answer, twice": "silence\nsilence\n",
    "no answer to the last": "answer\nanswer\nanswer\nsilence\n",
    "a connection that ends": "close\nanswer\nclose\nclose\n",
    "a late answer": "late 0.2 answer\nanswer\nlate 0.2 answer\n",
    "a halted server": "fault 3\nfault 3\nanswer\nfault 3\n",
    "a server without memory": "fault 4\nanswer\nfault 4\n",
    "a full server": "answer\nfault 5\n",
    "a door that lets a touch through late": "answer\nfault 7\nfault 7\n",
    "a fault of a later version": "fault 77\n",
    "the answer to another touch": "another answer\nanswer\nanother reply 1 -900 1100\n",
    "another touch's fault": "another fault 3\nanswer\n",
    "the answer to an enquiry": "holding 1 1650 4\n",
    "no answer's bytes": "bytes 01\nanswer\nbytes 001401\nbytes 0014 85 0007\n",
    "a bad frame": "fault 1\nanswer\nfault 1\n",
    "verdicts that have no meaning yet": "reply 19 0 0\nreply 0 0 0\nreply 199 0 0\nreply 18 5 -5\n",
    "everything": "silence\ncut 9 answer\nfault 3\nclose\nanother answer\nlate 0.2 answer\nbytes 00\nfault 4\n",
} | {f"an answer that is cut after {size} bytes": f"cut {size} answer\nanswer\ncut {size} answer\n"
     for size in range(22)}
