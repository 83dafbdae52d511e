"""Whether the help of dmk, its man page, docs/USING.md and the completions for bash and zsh have the same options, and whether
USING.md has each option that is refused by name and each message of the programs.

`python3 scripts/options.py [DMK]` runs the built program's --help; DMK is the path of another one. Help and man page group
them alike: the groups of the one are the headings of the other. Messages are taken from the crates' sources: texts of errors, and
what is written to standard error. The last line is 'N passed, M failed'.
"""
import glob
import os
import re
import subprocess
import sys

ROOT = os.path.dirname(os.path.dirname(os.path.abspath(__file__)))
OPTION = r"(?<![\w-])(--?[A-Za-z][\w-]*)"
STRING = r'"((?:[^"\\]|\\.)*)"'

# Programs of tests, whose texts no user of dmk reads.
TEST_CRATES = {
    "board_rows", "call_rows", "disk_rows", "record_rows", "row_files", "run_doubles", "store_rows", "unit_tests", "word_rows", "worker_tests",
}
# No program stands on these yet.
LATER_CRATES = {"mk_gnu_items"}

# Texts of errors that are answered by others: those of a record become 'damaged at byte N' or 'cannot be recorded', those of
# a report the note on the target, those of a commit 'state not written: ..', and that of a look names what was looked at.
INNER = {
    "the bytes end inside a record",
    "a byte that no record has there",
    "a name is empty",
    "a byte that may not stand there",
    "a name, a command or the record is too long",
    "too many commands, hidden names or explicit names",
    "a name is too long",
    "too many names",
    "an earlier device fault",
    "generations spent",
    "cannot look",
    "{0}; its file was removed",
}


def text_of(name):
    with open(os.path.join(ROOT, name), encoding="utf-8") as file:
        return file.read()


def groups_of_help(program):
    """The options of each heading of the help."""
    text = subprocess.run([program, "--help"], stdout=subprocess.PIPE, check=True, text=True).stdout
    groups, heading = {}, None
    for line in text.splitlines():
        if found := re.fullmatch(r"(\w[\w ]*):", line):
            heading = found[1]
        else:
            tag, aliases = re.match(r"  +(-.*?)(?:  .*)?$", line), re.search(r"\[alias(?:es)?: (.*)\]$", line)
            for options in filter(None, (tag, aliases)):
                groups.setdefault(heading, set()).update(re.findall(OPTION, options[1]))
    return groups


def groups_of_page():
    """The options of each part of the man page's OPTIONS."""
    section = re.search(r"^\.SH OPTIONS\n(.*?)^(?:\.SH|\.PP)", text_of("man/dmk.1"), re.M | re.S)[1]
    groups = {}
    for part in re.split(r"^\.SS ", section, flags=re.M)[1:]:
        heading, rest = part.split("\n", 1)
        # The tag of a .TP is its next line; -dd is -d twice.
        tags = " ".join(re.findall(r"^\.TP\n(.*)$", rest, re.M)).replace("\\-", "-")
        groups[heading] = set(re.findall(OPTION, tags)) - {"-dd"}
    return groups


def section_of_using(heading):
    return re.search(r"^## %s\n(.*?)(?:^## |\Z)" % heading, text_of("docs/USING.md"), re.M | re.S)[1]


def options_of_using():
    """The options of the table of dmk in USING.md."""
    cells = re.findall(r"^\| (`-[^|]*) \|", section_of_using("Options"), re.M)
    # -dd is -d twice.
    return set(re.findall(OPTION, " ".join(cells))) - {"-dd"}


def options_of_bash():
    words = re.search(r"compgen -W '(-[^']*)'", text_of("completions/dmk.bash"))[1]
    return set(words.split())


def options_of_zsh():
    arguments = text_of("completions/_dmk").split("_arguments", 1)[1]
    options = set()
    for word in re.findall(r"^ {4}['\"](.*)$", arguments, re.M):
        if braces := re.search(r"\{(-[^}]*)\}", word):
            options.update(option.rstrip("=") for option in braces[1].split(","))
        else:
            options.update(re.findall(r"^\*?(--?[A-Za-z][\w-]*)=?\[", word))
    return options


def refused_options():
    """The options of other makes that are refused, as the program names them."""
    text = text_of("crates/dmk_words/src/option_table.rt")
    constants = dict(re.findall(r"const (\w+): &str = " + STRING, text))
    ids = [re.search("id: (?:%s|(\\w+))" % STRING, row) for row in text.split("    Row {")[1:] if re.search(r"Role::(Refused|Wide)\(", row)]
    return {found[1] or constants[found[2]] for found in ids}


def refused_of_using():
    """Those that USING.md has with the message."""
    return set(re.findall(r"`(-[^`]*)`", re.search(r"`OPTION isn't supported: WHY`([^;]*);", section_of_using("When it goes wrong"))[1]))


def texts_of(source):
    """The texts of errors in a crate's source, and those that it writes or that another's text is written with."""
    texts = re.findall(r"#\[error\(\s*" + STRING, source)
    if "std::io" in source or "impl fmt::Display" in source:
        texts += re.findall(r"\b(?:write|writeln|eprintln)!\([^\"]*" + STRING, source)
        texts += re.findall(r"\b(?:write_str|write_all)\(\s*b?" + STRING, source)
        for call in re.findall(r"\bself\.of_state\(([^;]*)\)", source):
            texts += re.findall(STRING, call)
        texts += re.findall(r"^pub const \w+_NOTE: &str = " + STRING, source, re.M)
    return texts


def messages():
    """The texts of the programs' messages."""
    found = set()
    for path in sorted(glob.glob(os.path.join(ROOT, "crates", "*", "src", "**", "*.rt"), recursive=True)):
        if os.path.relpath(path, ROOT).split(os.sep)[1] not in TEST_CRATES | LATER_CRATES:
            found.update(text.replace('\\"', '"') for text in texts_of(text_of(os.path.relpath(path, ROOT))))
    return found - INNER


def words_of_messages(texts):
    """What stands in messages between the names and numbers in them, as far as these are words."""
    words = set()
    for text in texts:
        for part in re.split(r"\{[^}]*\}|\\n|\\u\{.*", text):
            part = re.sub(r"^dmk(?:_state|_tool)?: ", "", part).strip(" :")
            if re.search(r"[a-z]{2}", part) and part != "dmk":
                words.add(part)
    return words


def difference(one, other):
    return ["  only in the one: " + ", ".join(sorted(one - other)), "  only in the other: " + ", ".join(sorted(other - one))]


def main():
    program = sys.argv[1] if sys.argv[1:] else os.path.join(ROOT, "crates", "dmk", "out", "dmk")
    helped, paged = groups_of_help(program), groups_of_page()
    everything = set().union(*helped.values())
    rows = [("the headings of help and man page", set(helped), set(paged))]
    rows += [("the options under '%s' in help and man page" % name, helped[name], paged.get(name, set())) for name in helped]
    rows += [("the options of help and USING.md", everything, options_of_using()),
             ("the options of help and bash", everything, options_of_bash()),
             ("the options of help and zsh", everything, options_of_zsh()),
             ("the options that are refused and USING.md", refused_options(), refused_of_using())]
    told = section_of_using("When it goes wrong") + section_of_using("What is printed")
    wanted = words_of_messages(messages())
    rows += [("the messages of the programs and USING.md", wanted, {words for words in wanted if words in told})]
    failed = 0
    for name, one, other in rows:
        if one != other or not one:
            failed += 1
            print("\n".join(["FAILED " + name] + difference(one, other)))
    print("%d passed, %d failed" % (len(rows) - failed, failed))
    return 1 if failed else 0


if __name__ == "__main__":
    sys.exit(main())
