# Policy files near the limit that are right. Each shows the role of its line the first two employees.
python3 - <<'END'
SECURED = 'table = [{name = "employees", row_security = true}]\n'
GRANT = 'grant = [{name = "all", rights = ["employees.*"]}]\n'
NO_RIGHTS = 'role = [{name = "dan"}]\n' + SECURED
DAN = NO_RIGHTS + GRANT


def policy(name, using="row.id < 3", to='["dan"]', more=""):
    return f"[[policy]]\nname = '{name}'\ntable = 'employees'\nto = {to}\nusing = '{using}'\n{more}"


def roles(members):
    """A list of roles, each a member of those before it that are told."""
    listed = ",".join(f"{{name='r{place}',member_of={some}}}" for place, some in enumerate(members))
    return f"role = [{listed}]\n" + SECURED + GRANT


def grant(name, rights, to='["public"]', array="grant"):
    return f"[[{array}]]\nname = '{name}'\nto = {to}\nrights = {rights}\n"


def withholds(rights, to='["public"]', count=12_000):
    return "".join(grant(f"w{place}", rights, to, "withhold") for place in range(count))


limit = DAN + policy("p")
narrow = "kind = 'restrictive'\n"
FILES = {
    "limit": limit + "#" * (1_048_576 - len(limit)),
    # A chain of membership, and roles of which each is in two before it: there are more ways than can be counted.
    "long_chain": roles([[]] + [[f"r{place}"] for place in range(19_999)]) + policy("p", to='["r0"]'),
    "diamonds": roles([[], ["r0"]] + [[f"r{place}", f"r{place + 1}"] for place in range(998)]) + policy("p", to='["r0"]'),
    "many_policies": DAN + policy("p") + "".join(policy(f"n{place}", "row.id != 4", more=narrow) for place in range(5_000)),
    "many_listed": DAN + policy("p", to=str(["dan"] * 100_000)),
    # The last of many grants lets the role read names, and none of many withholds is of a column that it reads.
    "many_grants": NO_RIGHTS + policy("p") + "".join(grant(f"g{place}", '["depts.*"]') for place in range(12_000)) + grant(
        "all", '["employees.*"]'),
    "many_withholds": DAN + policy("p") + withholds('["employees.salary"]'),
    "many_withholds_from_nobody": DAN + policy("p") + withholds('["employees.*"]', "[]"),
    "many_rights": NO_RIGHTS + policy("p") + grant("all", str(["employees.name"] * 30_000)) + withholds(
        str(["depts.*"] * 30_000), count=1),
    "many_stars": NO_RIGHTS + policy("p") + grant("all", str(["employees.*"] * 60_000)),
    "many_listed_in_a_grant": NO_RIGHTS + policy("p") + grant("all", '["employees.*"]', str(["dan"] * 100_000)),
    "long_rule": DAN + policy("p", "row.id < 3" + " " * 65_000 + "|| row.id < 3"),
}
for name, text in FILES.items():
    with open(f"{name}.toml", "w") as file:
        file.write(text)
END
[ "$(stat -c %s limit.toml)" -eq 1048576 ] || exit 1
