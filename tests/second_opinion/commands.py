"""The command line: the words after the program's name, read as the library `clap` reads them."""

from dataclasses import dataclass, field

OPTIONS = ("--role", "--policy", "--script", "--watch")
FLAGS = ("--audit",)
REQUIRED = ("--role", "--policy")


class UsageFault(Exception):
    """The words aren't a call of the program."""


class HelpWanted(Exception):
    """The words ask how the program is called."""


@dataclass
class Options:
    """The value of each option by its name, the flags, and the tables' words in order."""

    values: dict = field(default_factory=dict)
    flags: set = field(default_factory=set)
    tables: list = field(default_factory=list)


def is_value(word):
    """A word that begins with `-` is an option, but for the sign alone."""
    return not word.startswith("-") or word == "-"


def take_flag(options, word):
    """A flag has no value."""
    if word in options.flags:
        raise UsageFault(f"{word} is given twice")
    options.flags.add(word)


def take_option(options, word, rest):
    """Reads an option, and of the words after it its value, where that doesn't follow a `=`."""
    name, equals, value = word.partition("=")
    if word in ("--help", "-h"):
        raise HelpWanted
    if word in FLAGS:
        take_flag(options, word)
        return
    if name not in OPTIONS:
        raise UsageFault(f"no option {word}")
    if not equals:
        if not rest or not is_value(rest[0]):
            raise UsageFault(f"{name} has no value")
        value = rest.pop(0)
    if name in options.values:
        raise UsageFault(f"{name} is given twice")
    options.values[name] = value


def options_of(words):
    """The options and tables of the words, which are bytes. The first fault counts, and what is missing comes last."""
    try:
        rest = [word.decode("utf-8") for word in words]
    except UnicodeDecodeError:
        raise UsageFault("a word that isn't UTF-8") from None
    options = Options()
    while rest:
        word = rest.pop(0)
        if word == "--":
            options.tables += rest
            break
        if is_value(word):
            options.tables.append(word)
        else:
            take_option(options, word, rest)
    if not options.tables or any(name not in options.values for name in REQUIRED):
        raise UsageFault("an option or the tables are missing")
    return options
