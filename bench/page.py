"""page.py NAME [page]: prints its input; with `page` also puts it between the marks of NAME in docs/SPEED.md."""
import os
import re
import sys

text = sys.stdin.read()
sys.stdout.write(text)
if not text:
    sys.exit("nothing measured")
if sys.argv[2:] == ["page"]:
    path = os.path.join(os.path.dirname(os.path.abspath(__file__)), "..", "docs", "SPEED.md")
    with open(path) as f:
        page = f.read()
    name = sys.argv[1]
    page, places = re.subn(
        rf"(<!-- {name} -->\n).*?(<!-- end of {name} -->)", lambda m: m[1] + text + m[2], page, flags=re.S)
    if places != 1:
        sys.exit(f"docs/SPEED.md has no place for {name}")
    with open(path, "w") as f:
        f.write(page)
