#!/usr/bin/env python3
"""The hunt: changes one token of a definition, or the body of one clause, at a time and asks the prover whether any theorem notices.

    tests/hunt.py OUT [--specs CRATE ..] [--only TEXT] [--again] [--ask CRATE] [--workers N] [--list]

Not a part of the gate, but for one site, by which ./test sees that the hunt works: a check takes seconds, and there are hundreds of
sites. A line is added to the file OUT for each site as it is decided, and a site that stands there already is not tried again, so the
hunt may be stopped and started at will. A whole hunt:

    tests/hunt.py OUT --specs rules base octets    then --specs sensor, --specs pairs
    tests/hunt.py OUT --again --ask demands        what survived, once more: the theorems of the crate on top may notice

    --specs CRATE ..  whose definitions to change: rules (as it stands), base, octets, sensor, pairs, demands
    --only TEXT       only sites whose line of output has this text in it (a file, a definition, a change)
    --again           only what survived: those sites are tried anew
    --ask CRATE       ask about this crate (as it stands: rules, which base and octets serve; each other for its own definitions)
    --workers N       that many at once, each in its own copy
    --list            print the sites and ask nothing

Outcomes: `refused` (with the first theorem whose proof fails), `survived`, `ill-formed` (the changed definition has no meaning: not
a site), `unsure` (no verdict). A proof may fail where its theorem still holds, so `survived` is sure and `refused` is a strong hint.
The code is left out of the copies, since a definition might be changed with its code: what is asked is whether theorems pin it."""
import argparse, collections, concurrent.futures, glob, hashlib, os, queue, re, shutil, subprocess, sys, tempfile

ROOT = os.path.dirname(os.path.dirname(os.path.abspath(__file__)))
LIMIT = 300  # seconds for one check

# Names that stand for one another: each is changed to every other of its group.
GROUPS = [g.split() for g in (
    'true false', 'Dark Lit', 'Timed Warning Ending', 'Free Off On', 'Failure Return', 'Up BusDown PowerDown',
    'SwitchOnOff TimedStartStop LockDevice NightMode', 'Bus Power', 'power_down bus_down', 'is_dark is_lit', 'be16 be32',
    'Seconds Tenths', 'version_one version_two', 'width unit', 'form_in form_alone', 'delay time_at', 'parameters_size inputs_at',
    'modes_at scenes_at', 'scene_place flags_place', 'recalls_on recalls_off', 'lights dims', 'min max', '≤ <', '&& ||',
    # functions of one type, and variables that often stand side by side
    'timed_start timed_stop off night_falls', 'switch timed', 'value attributes', 'version actuators',
    'parameters_offset input_count inputs_offset end_time', 't d', 'night held', 'timed night', 'clock stamp', 'last stamp end', 'before after', 'a b c')]
# In these, and among fields, a name is changed to the next one only: the groups are long.
RINGS = [g.split() for g in (
    'NoPower NoBus Locked Forced',
    'WrongLength WrongVersion WrongActuators WrongLayout BadParameter BadInput BadStamp ShortBuffer UnsoundState BadAction WrongGroups',
    '.ondelay .offdelay .timedon .prewarning', '.locking .unlocking .busfailure .busreturn .powerreturn',
    '.night .lock .atlocking .atfailure', '.power .bus .lock .force', '.value .taught', '.stamp .value .attributes .cause',
    '.records .answers', '.code .place .count', '.met .left')]
# One way only.
OTHERS = {'leb': ['ltb'], 'ltb': ['leb'], 'eqb': ['leb'], '+': ['-'], '-': ['+'], '*': ['+'], '/': ['%'], '%': ['/'], '^': ['*']}
for group in GROUPS:
    for name in group: OTHERS.setdefault(name, []).extend(x for x in group if x != name)
for ring in RINGS:
    for name, following in zip(ring, ring[1:] + ring[:1]): OTHERS.setdefault(name, []).append(following)

# A field stands right behind what has it, as in `p.ondelay`, and is a token of its own.
TOKEN = re.compile(r'\.[a-z]\w*|[(){};,]|[^\s(){};,.]+|\.')
Token = collections.namedtuple('Token', 'text start end')
Site = collections.namedtuple('Site', 'file line definition old new text key')


# ---- the bodies of the definitions

def uncommented(text):
    """The text with its comments blanked, so that every place stays where it is."""
    return re.sub(r'(?m)(^|(?<=\s))--.*$', lambda m: ' ' * len(m.group()), text)


def items(text):
    """The top-level items: a line that is not indented, and the indented ones below it."""
    starts = [m.start() for m in re.finditer(r'(?m)^\S', text)]
    return list(zip(starts, starts[1:] + [len(text)]))


def bodies(text):
    """Name, head and place of every body: what stands after the `=` of a clause, and the types of a record's fields, which may be
    statements."""
    for start, end in items(text):
        item = text[start:end]
        words = item.split()
        if words[0] in ('use', 'mod', 'unfolding') or words[:2] in (['pub', 'mod'], ['pub', 'data']): continue
        if words[:2] == ['pub', 'record']:
            for m in re.finditer(r'(?m)^ +pub (\S+) : ((?:.|\n(?! +pub ))*)', item): yield words[2], m.group(1), start + m.start(2), start + m.end(2)
        elif not re.match(r'((abbrev|unfoldable) )?(pub )?\S+ :', item):
            head = re.search(r'\s=\s', item)
            if head: yield words[0], item[:head.start()], start + head.end(), end


# ---- the changes of a body

def closing(tokens, i):
    """The index after the argument that starts at i: a name, or a pair of parentheses, with the fields right behind it."""
    depth = 0
    while i < len(tokens):
        depth += {'(': 1, ')': -1}.get(tokens[i].text, 0)
        i += 1
        if depth <= 0 and not (i < len(tokens) and tokens[i].text[0] == '.' and tokens[i].start == tokens[i - 1].end): return i
    return i


def operand(tokens, i, way):
    """First and last token of the operand beside a connective."""
    depth, j = 0, i + way
    while 0 <= j < len(tokens):
        t = tokens[j].text
        depth += {'(': way, ')': -way}.get(t, 0)
        if depth < 0 or depth == 0 and t in ('&&', '||', '=', ';', '{', '}', ',', 'in', 'let', '→', '∷', '≡'): break
        j += way
    a, b = sorted((i + way, j - way))
    return tokens[a], tokens[b]


def changes(body, tokens, i):
    """(start, end, text) of each change at a token."""
    t = tokens[i]
    before = tokens[i - 1].text if i else ''
    if i + 1 < len(tokens) and tokens[i + 1].text == '=': return  # the name of a field that is written
    if re.fullmatch(r'\d[\d_]*', t.text) and before != 'Type':
        n = int(t.text.replace('_', ''))
        for other in (n + 1, n - 1):
            if other >= 0: yield t.start, t.end, str(other)
    for other in OTHERS.get(t.text, []): yield t.start, t.end, other
    if t.text in ('&&', '||'):
        for way in (-1, 1):
            a, b = operand(tokens, i, way)
            yield a.start, b.end, 'true' if t.text == '&&' else 'false'
    if t.text == 'not': yield t.start, tokens[i + 1].start, ''
    if t.text in ('cond', 'earlier'):
        marks = [i + 1]
        for _ in range(3 if t.text == 'cond' else 2): marks.append(closing(tokens, marks[-1]))
        if marks[-1] > len(tokens) or marks[-2] >= len(tokens): return
        arguments = [(tokens[a].start, tokens[b - 1].end) for a, b in zip(marks, marks[1:])]
        if t.text == 'earlier':
            for a, b in arguments: yield t.start, arguments[1][1], body[a:b]
        else:
            (a, b), (c, d) = arguments[1:]
            yield a, d, body[c:d] + body[b:c] + body[a:b]


def imported(text, old, new):
    """The text with `new` added to the `use` line that brings `old`, if no line brings it."""
    old, new = (x if re.match(r'\w', x) else '◌%s◌' % x for x in (old, new))  # as a `use` line has them
    brings = lambda x: re.compile(r'(?m)^(use .*[{ ])(' + re.escape(x) + r')(?=[,}])')
    return text if brings(new).search(text) else brings(old).sub(lambda m: m.group(1) + new + ', ' + m.group(2), text, count=1)


def following(plain, clauses, name, head):
    """The body of the clause after this one, of the same definition (the first, after the last)."""
    own = [(h, plain[a:b].rstrip()) for n, h, a, b in clauses if n == name and h.split()[0] == name]
    heads = [h for h, _ in own]
    return [own[(heads.index(head) + 1) % len(own)][1]] if head in heads and len(own) > 1 else []


def sites(path):
    text = open(os.path.join(ROOT, path)).read()
    plain = uncommented(text)
    seen = set()
    clauses = list(bodies(plain))
    for name, head, start, end in clauses:
        body = plain[start:end]
        tokens = [Token(m.group(), m.start(), m.end()) for m in TOKEN.finditer(body)]
        found = [(i, change) for i in range(len(tokens)) for change in changes(body, tokens, i)]
        # and the whole body for that of the definition's next clause
        found += [(0, (0, len(body.rstrip()), other)) for other in following(plain, clauses, name, head) if other != body.rstrip()]
        for i, (a, b, new) in found:
            place = (start + a, start + b, new)
            if place in seen: continue
            seen.add(place)
            changed = text[:start + a] + new + text[start + b:]
            if new in OTHERS and new[0] != '.': changed = imported(changed, tokens[i].text, new)
            # the same site of the same definition has the same key, wherever it stands in its file
            key = hashlib.sha1(repr((path, head.split(), body.split(), len(body[:a].split()), i, new)).encode()).hexdigest()[:10]
            yield Site(path, text.count('\n', 0, start + a) + 1, name, ' '.join(body[a:b].split()), ' '.join(new.split()) or 'nothing', changed, key)


def described(s):
    return '%s:%d %s: %s -> %s' % (s.file, s.line, s.definition, s.old, s.new)


# ---- asking the prover

def without_code(folder):
    """Types, definitions and laws alone: functions, `impl` and `trait` blocks, and the proofs of functions, are taken out. (These lie in folders
    that are named as modules and functions are, with a small letter.)"""
    for path in glob.glob(folder + '/src/**/*.rt', recursive=True):
        # without comments; then each function or block goes with the attributes before it, up to the brace that is indented as it is
        text = re.sub(r'(?m)^ *//.*\n', '', open(path).read())
        text = re.sub(r'(?m)^( *)(#\[.*\n\1)*((pub|pub\(crate\)) )?(extern "C" )?(fn|impl|trait)\b(.|\n)*?^\1}\n', '', text)
        types = re.sub(r'(?m)^(ghost )?use [^;]*;\n', '', text)
        def wanted(m):
            names = [n.strip() for n in m.group(2).strip('{}').split(',')]
            names = [n for n in names if n and re.search(r'\b%s\b' % n.split('::')[-1], types)]
            return 'use %s::{%s};\n' % (m.group(1), ', '.join(names)) if names else ''
        open(path, 'w').write(re.sub(r'(?m)^use ([\w:]+)::(\w+|{[^}]*});\n', wanted, text))
    for path in glob.glob(folder + '/proofs/[a-z+]*/'): shutil.rmtree(path)


def crates_below(crate):
    """The crate and those it stands on, in the order of crates.txt."""
    lines = dict(l.split(':') for l in open(os.path.join(ROOT, 'crates.txt')) if ':' in l and 'staticlib' not in l and not l.startswith('#'))
    wanted, todo = set(), [crate]
    while todo:
        c = todo.pop()
        wanted.add(c)
        todo += [d for d in lines[c].split() if d not in wanted]
    return [(c, lines[c].strip()) for c in lines if c in wanted]


def copy(crate):
    """A copy of what stands below a crate, proved once, so that each check starts from there."""
    scratch = tempfile.mkdtemp(prefix='hunt-')
    with open(os.path.join(scratch, 'crates.txt'), 'w') as out:
        for name, below in crates_below(crate):
            out.write('%s: %s\n' % (name, below))
            shutil.copytree(os.path.join(ROOT, 'crates', name), os.path.join(scratch, 'crates', name), ignore=shutil.ignore_patterns('must-fail', 'out'))
            without_code(os.path.join(scratch, 'crates', name))
    outcome = ask(scratch, crate)
    if outcome != 'survived': sys.exit('the unchanged definitions are not proved (%s): see %s' % (outcome, scratch))
    return scratch


def ask(scratch, crate):
    try:
        p = subprocess.run(['rt', 'check'], cwd=os.path.join(scratch, 'crates', crate), stdout=subprocess.PIPE, stderr=subprocess.STDOUT, text=True, timeout=LIMIT)
    except subprocess.TimeoutExpired:
        return 'unsure'
    if p.returncode == 0: return 'survived'
    # rt stops at the first crate that fails, and tells files by their place in it
    failed = ([crate] + re.findall(r'(?m)^rt: the library (\w+) did not build', p.stdout))[-1]
    errors = re.findall(r'(?m)^\./(specs|proofs)/(\S+?)\.antt:\d+:\d+: error: (?:`([^`]+)`: )?', p.stdout)
    if any(kind == 'specs' for kind, _, _ in errors): return 'ill-formed'
    errors = [e for e in errors if e[2]]
    return 'refused (%s/%s: %s)' % (failed, errors[0][1], errors[0][2]) if errors else 'unsure'


def try_site(site, crate, copies):
    scratch = copies.get()
    path = os.path.join(scratch, site.file)
    try:
        open(path, 'w').write(site.text)
        return ask(scratch, crate)
    finally:
        shutil.copy(os.path.join(ROOT, site.file), path)
        copies.put(scratch)


# ---- the whole

def earlier_outcomes(out):
    """The last outcome of each site in the file of an earlier hunt."""
    lines = open(out).read().splitlines() if os.path.exists(out) else []
    return {l.split()[1]: l.split()[0] for l in lines if len(l.split()) > 2}


def figures(found, outcomes):
    by_file = collections.defaultdict(collections.Counter)
    for s in found: by_file[s.file][outcomes.get(s.key, 'untried')] += 1
    for name, c in sorted(by_file.items()) + [('in all', sum(by_file.values(), collections.Counter()))]:
        print('%-40s sites %4d  refused %4d  survived %4d  unsure %d  untried %d  (ill-formed %d)' % (name, sum(c.values()) - c['ill-formed'], c['refused'], c['survived'], c['unsure'], c['untried'], c['ill-formed']))


def main():
    words = argparse.ArgumentParser(description=__doc__, formatter_class=argparse.RawDescriptionHelpFormatter)
    words.add_argument('out')
    words.add_argument('--specs', nargs='+', default=['rules'])
    words.add_argument('--only', default='')
    words.add_argument('--again', action='store_true')
    words.add_argument('--ask')
    words.add_argument('--workers', type=int, default=1)
    words.add_argument('--list', action='store_true')
    w = words.parse_args()
    files = ['crates/%s/specs/%s' % (c, f) for c in w.specs for f in sorted(os.listdir(os.path.join(ROOT, 'crates', c, 'specs'))) if f.endswith('.antt') and f != 'Lib.antt']
    found = [s for f in files for s in sites(f) if w.only in described(s)]
    outcomes = earlier_outcomes(w.out)
    todo = [s for s in found if (outcomes.get(s.key) == 'survived' if w.again else s.key not in outcomes)]
    if w.list:
        for s in found: print(s.key, described(s))
    elif todo:
        crate = w.ask or next((c for c in w.specs if c not in ('rules', 'base', 'octets')), 'rules')
        copies = queue.Queue()
        for _ in range(w.workers): copies.put(copy(crate))
        with concurrent.futures.ThreadPoolExecutor(w.workers) as pool, open(w.out, 'a') as out:
            for s, outcome in zip(todo, pool.map(lambda s: try_site(s, crate, copies), todo)):
                outcomes[s.key] = outcome.split()[0]
                print(outcome.split()[0], s.key, described(s), outcome.partition(' ')[2], file=out, flush=True)
        while not copies.empty(): shutil.rmtree(copies.get())
    figures(found, outcomes)


if __name__ == '__main__': main()
