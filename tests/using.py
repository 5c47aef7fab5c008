"""The code of docs/USING.md runs: its Python here, each block by itself; each block of its C is written to a file of its own in the folder named, using-0.c and
so on, to be compiled. (Its Rust is run by cargo test, as the documentation that it is.)

    python3 tests/using.py FOLDER
"""

import re
import sys
from pathlib import Path

page = (Path(__file__).resolve().parent.parent / "docs" / "USING.md").read_text()


def blocks(language):
    return re.findall(rf"^```{language}\n(.*?)^```$", page, flags=re.S | re.M)


for number, block in enumerate(blocks("c")):
    (Path(sys.argv[1]) / f"using-{number}.c").write_text(block)
for number, block in enumerate(blocks("python")):
    exec(compile(block, f"docs/USING.md, block {number} of Python", "exec"), {})
print(f"using: {len(blocks('python'))} blocks of Python run")
