"""As random_makefiles.py, in the wide profile: python3 scripts/random_wide_makefiles.py [FIRST [LAST]]

What is printed more: definitions of each sign, whose texts refer to others in all forms, in one another too; include lines that
are expanded, and such as pass over what isn't there; phony names; what recipes say of all prerequisites; rules with `::`. What they mean
is worked out from the definitions in the order in which they are printed.
"""
import re
import sys

from random_makefiles import LETTERS, NEWER, REFERENCES, SHARED, SHELL, SIGNS, Makefile, main

# In a meaning: the reference of a number.
MARK = re.compile(rb"\0(\d+)\0")
FIRST, ONCE, REPEATED = b"\0first", b"\0once", b"\0repeated"
AUTOMATIC = [(b"$<", FIRST), (b"$(<)", FIRST), (b"$^", ONCE), (b"${^}", ONCE), (b"$+", REPEATED)]
DIGITS = b"".join(b"D%d = %d\n" % (digit, digit) for digit in range(10))

# It begins no comment.
HASH = [(b"\\#", b"#")]

# A text that is expanded when it is used, and one that was expanded where it stands.
LATE, NOW = "late", "now"


class Reference:
    """What stands in brackets: a text whose meaning is a name, and how the words of its value are changed, if they are."""

    def __init__(self, name, change=None):
        self.name, self.change = name, change


def changed(value, old, new):
    """The words of a value with old at their end, or of that pattern, changed."""
    words = []
    for word in value.replace(b"\t", b" ").split(b" "):
        front, sign, back = old.partition(b"%")
        if not word:
            continue
        if not sign and word.endswith(old):
            word = word[:len(word) - len(old)] + new
        elif sign and len(word) >= len(front + back) and word.startswith(front) and word.endswith(back):
            word = new.replace(b"%", word[len(front):len(word) - len(back)], 1)
        words.append(word)
    return b" ".join(words)


class WideMakefile(Makefile):
    """A makefile in the wide profile. Its names are PREFIX, M and a number; a text that is expanded late refers to lesser numbers
    alone, so that none refers to itself."""

    SHARED = SHARED + DIGITS
    COMMAND = "dmk --posix -r -n"
    STATEMENTS = 14
    PREFIXES = (b"", b" ", b"\t", b"@", b"-@ ", b"? !")  # a line with `+` would be run
    COMMENTS_IN_RECIPES = False

    def __init__(self, seed):
        self.texts, self.flavors = {}, {}
        self.references, self.sees = [], 0
        self.first, self.repeated = {}, {}
        self.is_double = {}  # of each target of a rule: whether its rules have `::`
        super().__init__(seed)

    def statements(self):
        return self.definition, self.definition, self.rule, self.rule, self.phony

    def word(self, pieces, least=1):
        return super().word(pieces + [self.reference() for _ in range(2 if self.sees else 0)], least)

    def reference(self):
        """A reference to a name of a number below `sees`, which may be defined nowhere, and its meaning."""
        number = self.random.below(self.sees)
        plain = b"%sM%d" % (self.prefix, number)
        name = self.random.choice((
            (plain, plain),
            (b"%sM$(D%d)" % (self.prefix, number), plain),
            (b"%s${EMPTY}M$(D$(D%d))" % (self.prefix, number), plain),
        ))
        change = self.random.choice((None, None, None, (b"d", b"D"), (b"$(y)", b"$$A"), (b"%a", b"x%/%"), (b"b%d", b"$(A)")))
        spelled = name[0]
        if change:
            spelled += b":%s=%s" % change
            change = tuple(text.replace(b"$(y)", b"ye").replace(b"$$", b"\0").replace(b"$(A)", b"one").replace(b"\0", b"$")
                           for text in change)
        self.references.append(Reference(name[1], change))
        left, right = self.random.choice(((b"$(", b")"), (b"${", b"}")))
        if right == b"}" and (b"}" in spelled or b"{" in spelled):
            left, right = b"$(", b")"
        return left + spelled + right, b"\0%d\0" % (len(self.references) - 1)

    def expanded(self, text):
        """A meaning with its references replaced by what is defined now."""
        return MARK.sub(lambda mark: self.value_of(self.references[int(mark[1])]), text)

    def value_of(self, reference):
        value = self.expanded(self.texts.get(reference.name, b""))
        return changed(value, *reference.change) if reference.change else value

    def definition(self):
        number = self.random.below(min(len(self.values) + 1, 10))
        name = b"%sM%d" % (self.prefix, number)
        sign = self.random.choice((b"=", b"+=", b"?=", b"::=", b":=", b":::="))
        expands = sign in (b"::=", b":=", b":::=") or sign == b"+=" and self.flavors.get(name) == NOW
        self.sees = 10 if expands else number
        # `x := A = y` is a conditional macro.
        signs = [] if sign == b":=" else SIGNS
        words = [self.word(LETTERS + signs + REFERENCES + HASH) for _ in range(self.random.below(4))]
        self.sees = 0
        self.text += self.random.choice((b"", b" ", b" \t")) + name
        self.text += self.random.choice((b"", b" ", b"\t", self.gap())) + sign
        for place, word in enumerate(words):
            self.text += (self.random.choice((b"", self.gap())) if place == 0 else self.gap((b" ",))) + word[0]
        self.end_line()
        self.define(name, sign, b" ".join(word[1] for word in words), any(word[0] for word in words))
        self.values = dict.fromkeys(sorted(self.texts))

    def define(self, name, sign, meaning, has_text):
        """Takes in the definition. An appended text stands behind a space, unless there is none before it: `${EMPTY}` is one."""
        if sign == b"?=" and name in self.texts:
            return
        if sign in (b"::=", b":=", b":::="):
            meaning = self.expanded(meaning)
            has_text = meaning != b""
        if sign == b"+=" and name in self.texts:
            if self.flavors[name] == NOW:
                meaning = self.expanded(meaning)
            if name in self.with_text:
                meaning, has_text = self.texts[name] + b" " + meaning, True
        elif sign in (b"::=", b":="):
            self.flavors[name] = NOW
        else:
            self.flavors[name] = LATE
        self.texts[name] = meaning
        (self.with_text.add if has_text else self.with_text.discard)(name)

    def go_on_in_another_file(self):
        """What was printed so far is included by a line that is expanded, or by one that passes over what isn't there."""
        self.end_file()
        name = list(self.files)[-1]
        define = self.prefix + self.random.choice((b"F = ", b"F ::= ", b"F := ", b"F :::= ")) + name + b"\n"
        self.text = self.random.choice((
            b"include %s\n" % name,
            define + b"include $(EMPTY) $(%sF)\n" % self.prefix,
            define + b"sinclude ${%sF:d=d} # c\n" % self.prefix,
            b"-include nothere_%s\\\n %s\n" % (self.prefix, name),
        ))

    def phony(self):
        """A line that says of some names that they are phony: of targets, or of one that has no rule."""
        names = [self.random.choice(self.targets) for _ in range(self.random.below(3))] if self.targets else []
        if self.random.once_in(3):
            names.append(self.target())
        self.text += b".PHONY" + self.random.choice((b":", b" :", b": $(EMPTY)"))
        for name in names:
            self.text += self.random.choice((b" ", self.gap())) + self.spelled(name)
        self.end_line()

    def rule(self):
        super().rule()
        for name in self.ruled:
            self.repeated[name] = self.repeated.get(name, []) + self.wanted

    def colons(self, names):
        for name in names:
            self.is_double.setdefault(name, self.is_double.get(names[0], None))
            if self.is_double[name] is None:
                self.is_double[name] = self.random.once_in(4)
        return b"::" if self.is_double[names[0]] else b":"

    def may_have_recipe(self, name):
        return self.is_double[name] or super().may_have_recipe(name)

    def recipe(self, targets, may_have_one):
        self.ruled = targets
        self.sees = 10
        before = {target: self.recipes.get(target) for target in targets}
        super().recipe(targets, may_have_one)
        self.sees = 0
        if self.is_double[targets[0]]:
            self.behind(before)
            return
        for target in targets:
            if self.recipes.get(target) is not None and target not in self.first:
                self.first[target] = self.wanted[:1]

    def behind(self, before):
        """The lines of a rule with `::` stand behind those of the others, and speak of its own prerequisites."""
        for target, lines in before.items():
            if self.recipes.get(target) is lines:
                continue
            newer = [name for name in self.prerequisites[target] if name in self.wanted]
            words = {FIRST: self.wanted[:1], ONCE: dict.fromkeys(self.wanted), REPEATED: self.wanted, NEWER: newer}
            own = self.recipes[target]
            for mark, names in words.items():
                own = [line.replace(mark, b" ".join(names)) for line in own]
            self.recipes[target] = (lines or []) + own

    def recipe_line(self):
        line = super().recipe_line()
        if self.text.endswith(b"\r\n") or self.random.once_in(2):
            return line
        spelled, meant = self.random.choice(AUTOMATIC)
        self.text = self.text[:-1] + b" " + spelled + b"\n"
        return line + b" " + meant

    def listing_of(self, target):
        first = (self.first.get(target) or self.repeated.get(target, []))[:1]
        listing = super().listing_of(target)
        for mark, names in ((FIRST, first), (ONCE, self.prerequisites[target]), (REPEATED, self.repeated.get(target, []))):
            listing = listing.replace(mark, b" ".join(names))
        return self.expanded(listing)

    def values_shown(self):
        return b"".join(b"echo <%s>\n" % self.expanded(self.texts[name]) for name in self.values)


if __name__ == "__main__":
    sys.exit(main(WideMakefile))
