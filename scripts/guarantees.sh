#!/bin/bash
# Compares crates/NAME/GUARANTEES.md with the sources of that crate. In its table each row is '| promise | call, clause | edits |':
# - a promise has 160 characters at most, and a row one clause at most;
# - the first name of a part (parts end at ';') is a function, `Type::function`, a type, a trait, a `crate::module` or a
#   lemma of the crate; each later one is a clause of these (of a record of specs/ a field), or one more of them;
# - the must-fail and the planted edits of the crate are named, each once or more, and no other ones.
# The must-not-compile edits of the crate are named in the file's text. In docs/TRUST.md the names behind `crate`: in the column
# 'clauses' stand in that crate's table.
# The last line is 'N passed, M failed'. A file without rows, rows without calls, and a tree without edits fail.
set -u -o pipefail
cd "$(dirname "$0")/.." || exit 2
exec python3 - <<'END'
import collections, glob, os, re, sys

LONGEST = 160

class Crate:
    """What stands in a crate's sources: functions, types and lemmas, and the clauses of each."""
    def __init__(self, crate):
        self.owners = collections.defaultdict(set)   # a function's name -> the types and traits whose it is, or the crate
        self.clauses = collections.defaultdict(set)  # (owner, function) -> its clauses; a trait's ghost members are its own
        self.types, self.lemmas = set(), set()
        for path in glob.glob(f'crates/{crate}/src/**/*.rt', recursive=True):
            module = crate + '::' + os.path.basename(path)[:-3]
            self.types.add(module)
            owner, function = [crate], None
            for line in open(path, encoding='utf-8'):
                if head := re.match(r'(?:pub )?(impl|trait)\b(.*)', line):
                    text = re.sub(r'^<[^>]*>', '', head[2].split(' where ')[0])
                    owner, function = re.findall(r"(?<![\w:'])[A-Z]\w*(?=[ <{:]|$)", re.sub(r'<[^{]*?>', '', text)), None
                elif line.startswith('}'):
                    owner, function = [crate], None
                if kind := re.match(r'\s*(?:pub(?:\(\w+\))? )?(?:struct|enum|trait|type) (\w+)', line):
                    self.types.add(kind[1])
                if call := re.match(r'\s*(?:pub(?:\(\w+\))? )?(?:const )?(?:final )?fn (\w+)', line):
                    function = call[1]
                    self.owners[function].update(owner)
                for clause in re.findall(r'^\s*ensures\*? (\w+) \{', line):
                    for one in [*owner, module]:
                        self.clauses[one, function].add(clause)
                if (member := re.match(r'    ghost (\w+):', line)) and function is None or member:
                    for one in owner:
                        self.clauses[one, ''].add(member[1])
        for path in glob.glob(f'crates/{crate}/specs/**/*.antt', recursive=True) + glob.glob(f'crates/{crate}/proofs/*.antt'):
            text = open(path, encoding='utf-8').read()
            self.lemmas.update(re.findall(r'^\s*(?:abbrev |unfoldable )?pub (?:data |record )?([\w-]+)', text, re.M))
            for name, body in re.findall(r'^pub record (\w+)(.*(?:\n .*)*)', text, re.M):
                self.clauses['', name].update(re.findall(r'^  pub (\w+) :', body, re.M))

    def calls_of(self, name):
        """The (owner, function) pairs that a name stands for; (Type, None) for a type, or a module, and all its functions."""
        if name in self.types:
            return [(name, None)]
        owner, _, function = name.rpartition('::')
        if owner:
            return [(owner, function)] if owner in self.owners[function] else []
        return [(one, name) for one in self.owners[name]] if name in self.owners else [('', name)] if name in self.lemmas else []

    def has_clause(self, call, clause):
        return any(clause in found for (owner, function), found in self.clauses.items()
                   if owner == call[0] and call[1] in (None, function))

def edits_of(crate, *folders):
    return {os.path.basename(path)[:-5] for folder in folders for path in glob.glob(f'crates/{crate}/{folder}/*.edit')}

passed, wrong, promises, edits, cited = 0, [], 0, 0, collections.defaultdict(set)
for path in sorted(glob.glob('crates/*/')):
    name = path.split('/')[1]
    there, refused = edits_of(name, 'must-fail', 'planted'), edits_of(name, 'must-not-compile')
    edits += len(there)
    try:
        document = open(f'crates/{name}/GUARANTEES.md', encoding='utf-8').read()
    except FileNotFoundError:
        wrong += [f'{name}: edit not named, for there is no GUARANTEES.md: {edit}' for edit in sorted(there | refused)]
        continue
    crate, named = Crate(name), set()
    rows = re.findall(r'^\|(?! promise |---)([^|]*)\|([^|]*)\|([^|]*)\|$', document, re.M)
    if len(rows) != len(re.findall(r'^\|(?! promise |---)', document, re.M)):
        wrong.append(f'{name}: a row has not three columns')
    for promise, column, planted in rows:
        promise, found, one_clause = promise.strip(), 0, 0
        named.update(re.findall(r'`(\w+)`', planted))
        for part in column.split(';'):
            calls = []
            for word in re.findall(r'`([\w:]+)`', part):
                is_clause = any(crate.has_clause(call, word) for call in calls)
                more = [] if is_clause else crate.calls_of(word)
                if calls and word[0].islower() and '::' not in word and 'law' not in part:
                    more = [call for call in more if call[0] in {owner for owner, _ in calls}]
                calls = calls + more
                found += bool(is_clause or more)
                one_clause += is_clause
                cited[name].add(word)
                if not is_clause and not more:
                    wrong.append(f'{name}: no such call or clause: {word} ({promise})')
        passed += found
        wrong += [] if found else [f'{name}: no call or clause ({promise})']
        wrong += [] if one_clause < 2 else [f'{name}: {one_clause} clauses in one row ({promise})']
        wrong += [] if 0 < len(promise) <= LONGEST else [f'{name}: a promise of {len(promise)} characters, {LONGEST} at most ({promise})']
    promises += len(rows)
    wrong += [] if rows else [f'{name}: no rows']
    passed += len(named & there) + sum(f'`{edit}`' in document for edit in refused)
    wrong += [f'{name}: edit not named: {edit}' for edit in sorted(refused) if f'`{edit}`' not in document]
    wrong += [f'{name}: names no edit of its own: {edit}' for edit in sorted(named - there)]
    wrong += [f'{name}: edit not named: {edit}' for edit in sorted(there - named)]
trust = open('docs/TRUST.md', encoding='utf-8').read()
claims = re.findall(r'^\| \d+ \|.*\|([^|]*)\|$', trust, re.M)
for claim in claims:
    crate = None
    for word in re.findall(r'`([\w:]+)`', claim):
        if word in cited:
            crate = word
            continue
        is_there = any(word == one or one.endswith('::' + word) for one in cited[crate])
        passed += is_there
        wrong += [] if is_there else [f'docs/TRUST.md: {word} does not stand in the table of {crate}']
if not promises or not passed or not edits or not claims:
    wrong.append('no rows, calls, edits or claims were found')
print(*wrong, sep='\n', end='\n' if wrong else '')
print(f'{promises} promises')
print(f'{passed} passed, {len(wrong)} failed')
sys.exit(1 if wrong else 0)
END
