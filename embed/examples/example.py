"""Two sites that say something each, and take each other's states."""
import os
import sys

sys.path.insert(0, os.path.join(os.path.dirname(os.path.realpath(__file__)), ".."))
from cuestore import Conflicts, Incomplete, Refused, Replica  # noqa: E402

north = Replica().submit("port: >=1 & <=65535")
south = Replica().submit("port: 443")
assert north | south == south | north
print((north | south).export())

try:
    north.export()
except Incomplete as told:
    print(told.lines)
try:
    (north | south).submit("port: 80").export()
except Conflicts as told:
    print(told.lines)
try:
    north.submit("port: 0443")
except Refused as told:
    print(told.name, told.place)

# What is kept or sent is the bytes.
assert Replica(bytes(south)) == south
print((north | south).print(), end="")
