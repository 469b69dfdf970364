"""rounds.py CARRY FOLDER: lets CARRY go on for some rounds, and reads what it tells a service manager and a monitor."""
import os
import re
import signal
import socket
import subprocess
import sys

carry, folder = sys.argv[1:]
manager = socket.socket(socket.AF_UNIX, socket.SOCK_DGRAM)
manager.bind(f"{folder}/notify")
manager.settimeout(30)
words = [carry, "sync", f"folder:{folder}/nowhere", "round.state", "round", "--every", "0.2", "--status", "round.prom"]
process = subprocess.Popen(words, env={**os.environ, "NOTIFY_SOCKET": f"{folder}/notify"}, stderr=subprocess.PIPE)
told = [manager.recv(1000).decode() for _ in range(3)]
assert all("READY=1" in text and "STATUS=round" in text for text in told), told
process.send_signal(signal.SIGTERM)
faults = process.communicate(timeout=20)[1].decode()
assert process.returncode == 0 and faults.count("carry: merged ") >= 2, faults
with open("round.prom", encoding="utf-8") as file:
    text = file.read()
form = re.compile(r'(# (HELP|TYPE) \w+ .+|\w+\{\w+="[^"]*"(,\w+="[^"]*")*\} [0-9.e+]+)')
assert all(form.fullmatch(line) for line in text.splitlines()), text
assert 'cuestore_carry_conflicts{site="round"} 1\n' in text and 'failures_total{site="round"} 0\n' in text, text
