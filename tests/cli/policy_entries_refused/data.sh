# A file for each line of `each`, made of the file's own name: its text (file), or an entry of an array with these keys (grant,
# withhold, policy), with this right beside another one (grant_of, withhold_of), with this rule (using) or of this name
# (policy_named). In a name ␣ stands for a blank, ␤ for the end of a line and ␉ for TOML's escape of a tab.
python3 - "$(dirname "$0")/each" <<'END'
import sys
from pathlib import Path

RIGHT = 'name = "n"\nrights = ["employees.name", "{}"]\n'
FILES = {
    "file": "{}\n",
    "grant": "[[grant]]\n{}\n",
    "withhold": "[[withhold]]\n{}\n",
    "policy": '[[policy]]\nname = "p"\n{}\n',
    "grant_of": "[[grant]]\n" + RIGHT,
    "withhold_of": "[[withhold]]\n" + RIGHT,
    "using": "[[policy]]\nname = 'p'\ntable = 'employees'\nusing = '''{}'''\n",
    "policy_named": '[[policy]]\nname = "{}"\ntable = "employees"\nusing = "true"\n',
}
for line in Path(sys.argv[1]).read_text(encoding="utf-8").splitlines():
    path = Path(line.split(" ")[0])
    text = path.name.removesuffix(".toml").replace("␣", " ").replace("␤", "\n").replace("␉", "\\t")
    path.parent.mkdir(exist_ok=True)
    path.write_text(FILES[path.parent.name].replace("{}", text), encoding="utf-8")
END
