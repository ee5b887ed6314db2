"""The total of the sheet on standard input, or why it is refused."""
import sys

from evp.explain import explain
from evp.library import load

library = load()
sheet = sys.stdin.buffer.read()
if library.check(sheet):
    print(explain(library, sheet).line)
    sys.exit(1)
print("total %d to %d mg" % library.report(sheet).total)
