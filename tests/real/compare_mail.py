"""Compares the messages of a mailbox, decoded, with the outputs of jobs: compare_mail.py MAILBOX FOLDER.

The message of job N is `job N exit 0`, a newline, and the bytes of FOLDER/N. Each message has a From and a Date.
"""
import mailbox
import os
import re
import sys

path, folder = sys.argv[1:]
found = {}
for message in mailbox.mbox(path):
    number = re.fullmatch(r"atpost@\S+: job (\d+) exit 0", message["Subject"]).group(1)
    assert number not in found, f"job {number} has two messages"
    for name in ("From", "Date"):
        assert len(message.get_all(name, [])) == 1, f"job {number} has not one {name}"
    found[number] = message.get_payload(decode=True)
wanted = sorted(os.listdir(folder))
assert sorted(found) == wanted, f"messages of jobs {sorted(found)}, not {wanted}"
for number in wanted:
    with open(os.path.join(folder, number), "rb") as output:
        assert found[number] == f"job {number} exit 0\n".encode() + output.read(), f"the output of job {number} is not whole"
