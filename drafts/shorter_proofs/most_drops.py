#!/usr/bin/env python3
"""Lists the functions of the repository's built libraries that drop most values in place, with the size of their code in KB: what takes a proof longest."""
import json
import os
import re
import sys

root = os.path.dirname(os.path.dirname(os.path.dirname(os.path.realpath(__file__))))
found = []
for crate in sorted(os.listdir(f"{root}/crates")):
    file = f"{root}/crates/{crate}/out/rlib/{crate}.rlib/toolchain/mir.json"
    if os.path.exists(file):
        with open(file, encoding="utf-8") as functions:
            for name, function in json.load(functions):
                text = json.dumps(function)
                if "Destruct" not in name:
                    found.append((len(re.findall(r'::drop"', text)), len(text) // 1000, name))
for drops, kilobytes, name in sorted(found, reverse=True)[: int((sys.argv[1:] or ["40"])[0])]:
    print(drops, kilobytes, name)
