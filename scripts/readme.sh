#!/bin/bash
# Runs the commands of README.md and docs/COMING_FROM.md and compares what they print with what stands there; looks whether the
# links of all documents lead somewhere, whether a line of README.md is too long, and whether each figure has its date and its
# command.
#
#   scripts/readme.sh [FOLDER]    FOLDER: where dmk, dmk_state and dmk_tool are, in place of crates/*/out
#
# What is run: a fenced block ```console, or an indented one that begins with '$ '. A line '$ COMMAND' is a command, with the
# lines that a here-document or a backslash at its end asks for ('> ' in front is taken off); behind it stands what it prints, on
# both streams. '...' alone on a line stands for any lines. Words behind `console` in the fence's line:
#
#   not-run        it isn't run: at most two blocks a document
#   needs=A,B      it isn't run where program A or B isn't there, which is told
#
# A block of whatever language with the word file=NAME is written into the file NAME, from the folder where the commands are then.
#
# Each part below a heading '## ' is a shell of its own, in a fresh copy of the repository (without crates/) whose bin/ is first
# on the path. What a run of dmk prints (but with -n, -q or -j1) may come in any order of its lines, since two recipes run at
# once. Before each command stand 0.05 s, since files have the times of the system's clock. What the shell says of a killed
# process is cut down to what it says at a terminal.
#
# Links: those to files, and to headings as GitHub names them; a document's name in a text has to be that of one that is there.
# Figures: each row of a table of docs/FIGURES.md has a date and a command, or the text between its heading and its table has.
#
# The last line is 'N passed, M failed': commands, links, names of documents, dates and commands of figures, README's width.
set -u -o pipefail
cd "$(dirname "$0")/.." || exit 2
work=$(realpath "$(mktemp -d)") || exit 2
trap 'rm -rf "$work"' EXIT
export LC_ALL=C.UTF-8 HOME=$work/home TERM=dumb
unset MAKEFLAGS MAKELEVEL MFLAGS KEEP_STATE SUNPRO_DEPENDENCIES DMK_HOLDS DMK_PROFILE DESTDIR CFLAGS CC CMAKE_GENERATOR
mkdir -p "$work/home" "$work/copy/bin"
tar -c --exclude=./.git --exclude=./crates --exclude=./bin . | tar -x -C "$work/copy" || exit 2
for program in dmk dmk_state dmk_tool; do
    built=$(realpath -e -- "${1:-crates/$program/out}/$program") ||
        { printf 'not built: %s\n0 passed, 1 failed\n' "$program"; exit 1; }
    ln -s "$built" "$work/copy/bin/$program"
done
python3 - "$work" <<'END'
import collections, glob, os, re, shutil, subprocess, sys

WORK = sys.argv[1]
RUN, FIGURES = ('README.md', 'docs/COMING_FROM.md'), 'docs/FIGURES.md'
MONTHS = 'Jan(?:uary)?|Feb(?:ruary)?|March|April|May|June|July|Aug(?:ust)?|Sept(?:ember)?|Oct(?:ober)?|Nov(?:ember)?|Dec(?:ember)?'
passed, wrong = 0, []

def check(good, told):
    global passed
    passed += bool(good)
    wrong.extend([] if good else [told])

def text_of(name):
    with open(name, encoding='utf-8') as file:
        return file.read()

def blocks_of(name):
    """Of each block that is fenced or begins '    $ ': part, first line's number, words behind the language, language, lines."""
    part, lines, number, blocks = '', text_of(name).split('\n'), 0, []
    while number < len(lines):
        line = lines[number]
        part = line[3:] if line.startswith('## ') else part
        fence, indented = re.match(r'```(\S*) *(.*)$', line), line.startswith('    $ ')
        number += 1
        if not fence and not indented:
            continue
        first, block = number, [] if fence else [line[4:]]
        while number < len(lines) and (lines[number] != '```' if fence else re.match('    |$', lines[number])):
            block.append(lines[number] if fence else lines[number][4:])
            number += 1
        blocks.append((part, first, fence[2].split() if fence else [], fence[1] if fence else 'console', block))
        number += bool(fence)
    return blocks

def commands_of(block, place):
    """The commands of a block, with the lines that stand behind each."""
    commands, rest = [], collections.deque(block)
    check(block and block[0].startswith('$ '), f"{place}: a block of commands that doesn't begin with '$ '")
    while rest:
        line = rest.popleft()
        if not line.startswith('$ '):
            if commands:
                commands[-1][1].append(line)
            continue
        command = line[2:]
        word = re.search(r"<<-?\s*['\"]?(\w+)", command)
        while rest and (not command.endswith('\n' + word[1]) if word else command.endswith('\\')):
            command += '\n' + re.sub('^> ?', '', rest.popleft())
        commands.append((command, []))
    return [(command, '\n'.join(lines).rstrip('\n').split('\n') if any(lines) else []) for command, lines in commands]

def fits(wanted, printed):
    """Whether the printed lines are the wanted ones, where '...' stands for any."""
    pattern = ''.join(r'(?:.*\n)*' if line == '...' else re.escape(line) + r'\n' for line in wanted)
    return re.fullmatch(pattern, ''.join(line + '\n' for line in printed)) is not None

def fits_in_any_order(wanted, printed):
    some = collections.Counter(line for line in wanted if line != '...')
    return not some - collections.Counter(printed) and ('...' in wanted or sum(some.values()) == len(printed))

def is_run_of_dmk(command):
    return re.search(r'\bdmk\b', command) and not re.search(r' (-n|-q|-j *1)\b', command)

def run_part(name, part, steps):
    """Runs what stands below a heading, in a shell of its own."""
    shutil.rmtree(WORK + '/part', True)
    shutil.rmtree(WORK + '/out', True)
    shutil.copytree(WORK + '/copy', WORK + '/part', symlinks=True)
    os.mkdir(WORK + '/out')
    script = [f'PATH={WORK}/part/bin:$PATH', f'cd {WORK}/part']
    for number, (kind, what, _, _) in enumerate(steps):
        with open(f'{WORK}/out/{number}.in', 'w', encoding='utf-8') as file:
            file.write(what[1] if kind == 'file' else what + '\n')
        source, target = f'{WORK}/out/{number}.in', f'{WORK}/out/{number}.out'
        if kind == 'file':
            script.append(f'mkdir -p "$(dirname {what[0]})" && cp {source} {what[0]}')
        else:
            script.append(f'sleep 0.05; eval "$(cat {source})" >{target} 2>&1 </dev/null')
    with open(WORK + '/script', 'w', encoding='utf-8') as file:
        file.write('\n'.join(script) + '\n')
    try:
        subprocess.run(['bash', WORK + '/script'], timeout=300, stdin=subprocess.DEVNULL)
    except subprocess.TimeoutExpired:
        check(False, f"{name}, '{part}': not ended after 300 s")
    for number, (kind, what, wanted, place) in enumerate(steps):
        if kind == 'file':
            continue
        path = f'{WORK}/out/{number}.out'
        told = open(path, encoding='utf-8', errors='replace').read() if os.path.exists(path) else '(not run)'
        told = re.sub(r'^\S+: line \d+: +\d+ (Killed|Terminated|Interrupt)\b.*$', r'\1', told, flags=re.M).rstrip('\n')
        printed = told.split('\n') if told else []
        good = fits(wanted, printed) or is_run_of_dmk(what) and fits_in_any_order(wanted, printed)
        check(good, '\n    '.join([f'{place}: $ {what}', 'wanted:', *wanted, 'printed:', *printed]))

def run_document(name):
    parts, left_out, commands = {}, 0, 0
    for part, number, words, language, block in blocks_of(name):
        place = f'{name}:{number}'
        steps = parts.setdefault(part, [])
        files = [word[5:] for word in words if word.startswith('file=')]
        needs = [program for word in words if word.startswith('needs=') for program in word[6:].split(',')]
        missing = [program for program in needs if not shutil.which(program)]
        if files:
            steps.append(('file', (files[0], '\n'.join(block) + '\n'), [], place))
        elif language != 'console':
            check(not any(line.startswith('$ ') for line in block), f'{place}: commands in a block that is no console')
        elif 'not-run' in words:
            left_out += 1
            print(f'note: {place}: not run')
        elif missing:
            print(f'note: {place}: not run, since these aren\'t there: {" ".join(missing)}')
        else:
            steps.extend(('command', command, wanted, place) for command, wanted in commands_of(block, place))
        commands += language == 'console'
    check(commands, f'{name}: no commands')
    check(left_out <= 2, f'{name}: {left_out} blocks are not-run')
    for part, steps in parts.items():
        if any(kind == 'command' for kind, _, _, _ in steps):
            run_part(name, part, steps)

def prose_of(name):
    """A document without its blocks of code, and without spans of code in its lines."""
    text = re.sub(r'^```.*?^```$', '', text_of(name), flags=re.M | re.S)
    return re.sub(r'`[^`\n]*`', '', re.sub(r'^    .*$', '', text, flags=re.M))

def anchors_of(name):
    """The anchors of a document's headings, as GitHub makes them, and those that stand in it."""
    text, seen = re.sub(r'^```.*?^```$', '', text_of(name), flags=re.M | re.S), collections.Counter()
    anchors = set(re.findall(r'<a (?:id|name)="([^"]+)"', text))
    for heading in re.findall(r'^#{1,6} +(.*?) *#*$', text, re.M):
        slug = re.sub(r'\[([^]]*)\]\([^)]*\)', r'\1', heading).replace('`', '').replace('*', '')
        slug = re.sub(r'[^\w\- ]', '', slug.lower()).replace(' ', '-')
        anchors.add(f'{slug}-{seen[slug]}' if seen[slug] else slug)
        seen[slug] += 1
    return anchors

def check_links(name, documents):
    text = prose_of(name)
    targets = re.findall(r'\]\(\s*<?([^)\s>]+)', text) + re.findall(r'^\[[^]]+\]: *(\S+)', text, re.M)
    for target in targets:
        if re.match(r'\w+:', target):
            continue
        path, _, anchor = target.partition('#')
        path = os.path.normpath(os.path.join(os.path.dirname(name), path)) if path else name
        there = os.path.exists(path) and not path.startswith('..')
        check(there and (not anchor or path.endswith('.md') and anchor in anchors_of(path)), f'{name}: leads nowhere: {target}')
    # A document that is named without a link has to be there too; what was changed and decided may speak of old ones.
    if name != 'CHANGELOG.md' and not name.startswith('docs/decisions/'):
        known = {os.path.basename(document) for document in documents}
        for mention in sorted(set(re.findall(r'\b[A-Z][A-Z_]+\.md\b', text_of(name)))):
            check(mention in known, f'{name}: names {mention}, which isn\'t there')

def check_figures(name):
    """Each row of a table has a date and a command, or else the text between the heading and the table has."""
    wanted = (('date', rf'\b\d{{1,2}} (?:{MONTHS}) \d{{4}}\b|\b\d{{4}}-\d\d-\d\d\b'),
              ('command', r'`[^`]*\b(?:scripts|bin|examples|dmk|rt|bash|python3|git)\b[^`]*`'))
    above, rows, figures = '', 0, 0
    for line in text_of(name).split('\n'):
        if line.startswith('#'):
            above = ''
        if not line.startswith('|'):
            above, rows = above + line + '\n', 0
            continue
        rows += 1
        if rows > 2:
            figures += 1
            for what, pattern in wanted:
                check(re.search(pattern, line) or re.search(pattern, above), f'{name}: no {what}: {line}')
    check(figures, f'{name}: no figures')

documents = [name for name in ('README.md', 'CONTRIBUTING.md', 'CHANGELOG.md') if os.path.exists(name)]
documents += sorted(glob.glob('docs/**/*.md', recursive=True)) + sorted(glob.glob('crates/*/GUARANTEES.md'))
for name in (*RUN, FIGURES):
    check(os.path.exists(name), f'not there: {name}')
for name in RUN:
    if os.path.exists(name):
        run_document(name)
for name in documents:
    check_links(name, documents)
if os.path.exists('README.md'):
    long = [str(number) for number, line in enumerate(text_of('README.md').split('\n'), 1) if len(line) > 100]
    check(not long, f'README.md: lines of more than 100 columns: {" ".join(long)}')
if os.path.exists(FIGURES):
    check_figures(FIGURES)
for told in wrong:
    print('FAILED ' + told)
print(f'{passed} passed, {len(wrong)} failed')
sys.exit(1 if wrong else 0)
END
