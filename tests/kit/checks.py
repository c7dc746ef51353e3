"""A check of a simulated kit, of a crate whose root is its only source: a word in a body says what becomes of the
function. DINE_CALLS gets a line for each check, with the functions that it proves alone, and those that it refuses."""
import os
import re
import signal
import sys
from pathlib import Path

SOURCE = Path("src/lib.rt").read_text("utf-8")
CRATE = sys.argv[sys.argv.index("--crate-name") + 1]
ONLY = [it.removeprefix("--only=") for it in sys.argv if it.startswith("--only=")]
BODIES = dict(re.findall(r"^pub fn (\w+)\((.*?)^}", SOURCE, re.M | re.S))
# The functions that it proves.
LEFT = [name for name in BODIES if not ONLY or name in ONLY or any(f"{name}()" in BODIES.get(it, "") for it in ONLY)]
wrong = [name for name in LEFT if "wrong" in BODIES[name]]
with open(os.environ["DINE_CALLS"], "a", encoding="utf-8") as calls:
    calls.write(f"check {','.join(ONLY) or 'all'}: {','.join(wrong)}\n")
if it := os.environ.get("DINE_TOUCHES"):
    with open(it, "a", encoding="utf-8") as source:
        source.write("\n")
if not set(ONLY) <= set(BODIES):
    sys.exit(2)
if "broken" in SOURCE:
    print("src/lib.rt:4:5: error[parse]: a word that it does not know")
    sys.exit(1)
if "killed" in SOURCE:
    os.kill(os.getpid(), signal.SIGKILL)
if "unread" in SOURCE:
    print("src/lib.rt:4:5: error: `returns`: `unread` is not in scope")
if "untold" in SOURCE and not wrong:
    print("rattle: no verdict: it ran out of steps")
    sys.exit(3)
refused = "unread" in SOURCE
for name in LEFT:
    callees = [it for it in wrong if f"{it}()" in BODIES[name]]
    said = "not proved" if name in wrong else "could not tell" if "untold" in BODIES[name] else "proved"
    if callees:
        # Its own goals wait for those of the function that it calls.
        said = f"no proof: it calls `{CRATE}::{callees[0]}`, which is not proved"
    if said == "not proved":
        print(f"./proofs/{name}/Answers.antt:6:13: error: `returns`: no proof of it")
    print(f"fn {CRATE}::{name}: {said}")
    refused = refused or said != "proved"
number = len(ONLY)
print(f"only={number} proved={number - refused}" if ONLY else f"logic={'not-' * refused}proved")
sys.exit(int(refused))
