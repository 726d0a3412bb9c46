# A table file for each line of `each`, in a folder whose name is its text: ␣ stands for a blank, ␤ for a line feed and ␍ for a
# carriage return.
python3 - "$(dirname "$0")/each" <<'END'
import sys
from pathlib import Path

for line in Path(sys.argv[1]).read_text(encoding="utf-8").splitlines():
    folder = Path(line.split(" ")[0])
    folder.mkdir()
    text = folder.name.replace("␣", " ").replace("␤", "\n").replace("␍", "\r")
    (folder / "t.csv").write_bytes(text.encode())
END
