#!/usr/bin/env python3
"""Turns proofs of the older form, answers by a tie in proofs/F/Proof.antt, into proofs/F/Invariants.antt and Answers.antt.

usage: python3 tools/answers.py CRATE_FOLDER OLD NAMES.json [FUNCTION_FOLDER..]

CRATE_FOLDER is crates/NAME. OLD is a folder whose proofs/ has the crate's Proof.antt files as port.py and tools/respell.py left
them, taken out of the crate first. NAMES.json is what `rt check --generated FOLDER --old-names` writes into FOLDER, in the
crate's folder: for each function the old and the new name of each goal and of each step of the code. Invariants get the loop's
new names; in an answer a path of `.before` becomes the step's name, a stage that a `let` names becomes `c`, and a helper over
`tie.Start` a `let`. An answer that is `search rules` is left out, since the check tries that itself. Walks by hand are passed
over. What it says at the end is to be looked at by hand: goals that have no new name, and helpers that cite the tie.

The crates were turned by it; docs/unfinished.patch has proofs that are still to be."""
import json, os, re, sys

crate_dir, old_root, names_file = sys.argv[1:4]
only = sys.argv[4:] 
names = json.load(open(names_file))
crate = os.path.basename(os.path.abspath(crate_dir))

COMP = r"(?:«[^»]+»|[A-Za-z0-9_'][\w'-]*)"
PATH = re.compile(r"(?<![\w'.\u0391-\u03c9-])([A-Za-z_][\w'₀-₉-]*)((?:\.%s)+)" % COMP)

def norm(s):
    s = s.replace('_', '-')
    s = re.sub(r"^overflow-", "", s)
    return s

def decls(text):
    """Top-level chunks: a signature with its equations."""
    out = []
    name = None
    for line in text.split('\n'):
        top = line and not line[0].isspace() and not line.startswith(('--', 'unfolding', ')', '}'))
        if top:
            m = re.match(r"(?:abbrev |unfoldable |pub )*(\S+)", line)
            first = m.group(1)
            if name is not None and first == name and ' : ' not in line.split('=')[0]:
                out[-1] += '\n' + line
            else:
                out.append(line)
                name = first if re.match(r"(?:abbrev |unfoldable |pub )*\S+ :", line) else None
        else:
            if out: out[-1] += '\n' + line
            else: out.append(line)
    return out

def trailing_comment(chunk):
    """moves comment lines at the end of a chunk away"""
    lines = chunk.split('\n')
    tail = []
    while lines and (lines[-1].strip() == '' or lines[-1].startswith('--')):
        tail.insert(0, lines.pop())
    return '\n'.join(lines), '\n'.join(l for l in tail if l.strip())

def step_map(info):
    m = {}
    amb = set()
    for p in info['places']:
        old, new = p[2]
        if old:
            for o in (old, old.replace('_','-'), old.replace('-','_')):
                if o in m and m[o] != new: amb.add(o)
                m.setdefault(o, new)
        for q in (p[4] or []):
            try:
                o, n = q
                m.setdefault(o, n)
            except Exception: pass
    return m, amb

class Fn:
    def __init__(self, key, info):
        self.info = info
        self.parent = {p[0]: (p[1], p[2]) for p in info['places']}
        self.places = [p[0] for p in info['places']]
        self.steps, self.amb = step_map(info)

def walk(fn, start, comps, warn):
    """start place; comps old; returns new comps"""
    place = start
    i = 0
    while i < len(comps) and comps[i] == 'before':
        if place is None or place not in fn.parent:
            place = None
        else:
            place = fn.parent[place][0]
        i += 1
    return place, comps[i:]

def rust_params(fpath):
    """names of a function's parameters, from src"""
    parts = fpath.split('.')
    fname = parts[-1]
    srcs = []
    for d, _, fs in os.walk(os.path.join(crate_dir, 'src')):
        for f in sorted(fs):
            if f.endswith('.rt'): srcs.append(os.path.join(d, f))
    mods = parts[:-1]
    best = None
    for s in srcs:
        stem = os.path.splitext(os.path.relpath(s, os.path.join(crate_dir, 'src')))[0].replace('/', '.')
        pre = [] if stem in ('lib', 'main') else stem.split('.')
        if mods[:len(pre)] == pre and (best is None or len(pre) > best[0]):
            txt = open(s).read()
            if re.search(r"\bfn %s\b" % re.escape(fname), txt): best = (len(pre), txt, mods[len(pre):])
    if not best: return []
    txt = best[1]
    tail = best[2]
    if tail:
        m = re.search(r"\bimpl(?:<[^>]*>)?\s+(?:\w+\s+for\s+)?%s\b" % re.escape(tail[0]), txt)
        if m: txt = txt[m.start():]
    m = re.search(r"\bfn %s\b(?:<[^>]*>)?\(([^)]*)\)" % re.escape(fname), txt)
    if not m: return []
    out = []
    for a in m.group(1).split(','):
        a = a.strip()
        if not a: continue
        if a in ('self', 'mut self', '&self', '&mut self'): out.append('self'); continue
        n = a.split(':')[0].strip()
        n = re.sub(r"^mut ", '', n)
        out.append(n)
    return out

MUTS = {}
def scan_muts():
    """the parameters of every function of the repository, by name"""
    base = os.path.join(crate_dir, '..')
    for d, ds, fs in os.walk(base):
        ds[:] = [x for x in ds if x not in ('out', 'proofs', 'specs', 'must-fail')]
        for f in fs:
            if f.endswith('.rt'):
                for m in re.finditer(r"\bfn (\w+)(?:<[^>]*>)?\(([^)]*)\)", open(os.path.join(d, f)).read()):
                    ps = []
                    for a in m.group(2).split(','):
                        a = a.strip()
                        if not a: continue
                        if a in ('self', 'mut self', '&self', '&mut self'): ps.append('self'); continue
                        ps.append(re.sub(r"^mut ", '', a.split(':')[0].strip()))
                    MUTS.setdefault(m.group(1), [])
                    if ps not in MUTS[m.group(1)]: MUTS[m.group(1)].append(ps)
scan_muts()

def fix_args(fn, out):
    for m in list(re.finditer(r"let ([A-Za-z_][\w']*) = c\.args in", out)):
        a = m.group(1)
        def rep(mm):
            k = int(mm.group(1)) - 1
            n = fn.args[k] if k < len(fn.args) else 't%d' % (k + 1)
            return a + '.' + ('«%s»' % n if n in WORDS else n)
        out = re.sub(r"(?<![\w'.-])%s\.t(\d+)(?![\w'-])" % re.escape(a), rep, out)
    # what a &mut argument is after a call
    steps = {}
    for m in re.finditer(r"let ([A-Za-z_][\w']*) = c\.([a-z][\w'-]*) in", out): steps[m.group(1)] = m.group(2)
    def new(mm):
        root, step, k = mm.group(1), mm.group(2), mm.group(3).count('1')
        s = step if root == 'c' else steps.get(root)
        if s is None: return mm.group(0)
        callee = re.sub(r"-.*$", '', s)
        cands = MUTS.get(callee, [])
        names_ = {c[k] for c in cands if k < len(c)}
        if len(names_) != 1: return mm.group(0)
        n = names_.pop()
        n = '«%s»' % n if n in WORDS else n
        return (root + '.' + step if root == 'c' else root) + '.' + fix_args.word + '.' + n
    for word in ('new', 'auto'):
        fix_args.word = word
        out = re.sub(r"(?<![\w'.-])(c)\.([a-z][\w'-]*)\.%s((?:\.1)*\.0)(?!\w)" % word, new, out)
        out = re.sub(r"(?<![\w'.-])([a-z][\w']*)()\.%s((?:\.1)*\.0)(?!\w)" % word, new, out)
    return out

WORDS = {'data', 'record', 'open', 'abbrev', 'module', 'where', 'let', 'in', 'use', 'pub', 'syntax', 'unfold', 'ruleset'}

ALIAS_FIELD = {'inv': 'invariant', 'taken': 'true', 'left': 'false', 'came': 'branch'}

def convert_body(fn, body, start, need, warn):
    roots = {'c': start}
    # stage lets, in order
    def fix_path(root, comps):
        place, rest = walk(fn, roots[root], comps, warn)
        return place, rest
    out = body
    # iterate over lets in textual order: find 'let X = PATH in' with path only .before's
    stage_re = re.compile(r"let ([A-Za-z_][\w'₀-₉-]*) = ([A-Za-z_][\w'₀-₉-]*)((?:\.before)+) in\s*\n?\s*")
    while True:
        m = None
        for mm in stage_re.finditer(out):
            if mm.group(2) in roots:
                m = mm; break
        if not m: break
        place, rest = fix_path(m.group(2), m.group(3).strip('.').split('.'))
        roots[m.group(1)] = place
        # keep indentation of what follows
        out = out[:m.start()] + out[m.end():]
    def sub(m):
        root = m.group(1)
        if root not in roots: return m.group(0)
        comps = re.findall(r"\.(%s)" % COMP, m.group(2))
        place, rest = fix_path(root, comps)
        if not rest: return 'c'
        s = rest[0]
        if s in ('args', 'requires', 'ranges', 'type_inv', 'owed', 'well_formed'):
            new = s
        else:
            new = None
            if place in fn.parent and fn.parent[place][1][0].replace('_','-') == s.replace('_','-'):
                new = fn.parent[place][1][1]
            elif s in fn.steps: new = fn.steps[s]; 
            elif s.replace('_','-') in fn.steps: new = fn.steps[s.replace('_','-')]
            else:
                warn.append(f'no step {s}')
                new = s
        if s.replace('_', '-').startswith('enum-told') and rest[1:3] == ['given', '1']:
            vm = re.search(r"in-([A-Z]\w*)", need)
            if vm: return 'c.in-%s.is' % vm.group(1) + ''.join('.' + x for x in rest[3:])
        if s == 'args' and len(rest) > 1 and re.fullmatch(r"t\d+", rest[1]) and rest[1] not in fn.args:
            k = int(rest[1][1:]) - 1
            if k < len(fn.args): rest = [s, ('«%s»' % fn.args[k]) if fn.args[k] in WORDS else fn.args[k]] + rest[2:]
        rest2 = [ALIAS_FIELD.get(x, x) for x in rest[1:]]
        if new.startswith('wrapping_') and rest2[:1] == ['ensures']: rest2.insert(1, 'value')
        if re.match(r"if-not-|loop-\S+-test$", new) and rest2 in (['true'], ['false']) and new.startswith('if-not-'):
            fn.wants.add('ap'); fn.wants.add('not')
            return '(ap not c.%s.%s)' % (new, rest2[0])
        return 'c.' + '.'.join([new] + rest2)
    out = PATH.sub(sub, out)
    out = fix_args(fn, out)
    out = re.sub(r"\(?(?:ltb|leb)-(?:true|false) (?:[\w.'-]+|\([^()]*\)) (?:[\w.'-]+|\([^()]*\)) (c\.(?:if|loop)-[\w-]+\.(?:true|false))\)?(?= in|\)|$)", lambda m: m.group(1) if m.group(0).count('(') == m.group(0).count(')') or True else m.group(0), out)
    # bare roots
    for r in roots:
        if r != 'c':
            out = re.sub(r"(?<![\w'.-])%s(?![\w'.-])" % re.escape(r), 'c', out)
    return out

def main():
    report = []
    for key, info in names.items():
        m = re.match(r"Rattle-%s-proofs\.(.*)\.Lts$" % re.escape(crate), key)
        if not m: continue
        fpath = m.group(1)
        folder = fpath.replace('.', '/')
        if only and folder not in only: continue
        old = os.path.join(old_root, 'proofs', folder, 'Proof.antt')
        if not os.path.exists(old): continue
        text = open(old).read()
        if 'tie.spec' not in text and 'tie.close' not in text:
            report.append(f'{fpath}: hand walk, skipped'); continue
        fn = Fn(key, info)
        fn.args = rust_params(fpath)
        fn.wants = set()
        warn = []
        ch = decls(text)
        head = ''
        uses = []
        helpers = []
        invs = []
        answers = []
        need_by_norm = {}
        place_of_need = {}
        for (o, n), at in zip(info['needs'], info['asked_at']):
            need_by_norm[norm(o)] = n
            place_of_need[n] = at[0]
        loops = info['loops']
        oldloops = {}
        for k, (pair, vars_) in enumerate(loops):
            oldloops[pair[0]] = (pair[1], vars_, info['changed'][k])
        pend = ''
        for c in ch:
            body, tail = trailing_comment(c)
            comment = pend; pend = tail
            if body.startswith('--'): head = body; continue
            if body.startswith('use '):
                if 'Statement' in body or body.rstrip().endswith('as tie') or 'borrow.Author.Count' in body and False: continue
                uses.append(body); continue
            mm = re.match(r"abbrev (invariant|decreases)-(\S+) : tie\.", body)
            if mm:
                lines = body.split('\n')
                rest = '\n'.join(lines[1:])
                lm = re.match(r"(?s)(unfolding [^\n]*\n)?(\S+)((?: \S+?)*) =(.*)$", rest)
                kind, lname = mm.group(1), mm.group(2)
                if lname not in oldloops:
                    warn.append(f'loop {lname} unknown: {list(oldloops)}'); continue
                nl, vars_, changed = oldloops[lname]
                params = lm.group(3).split()
                order = []
                for v, ch_ in zip(vars_, changed):
                    order.append(('initial.' if ch_ else '') + v)
                for v, ch_ in zip(vars_, changed):
                    if ch_: order.append(v)
                b = lm.group(4)
                if len(order) != len(params): warn.append(f'invariant {lname}: {len(params)} params, {order}')
                subm = {p: 'l.' + o for p, o in zip(params, order)}
                def rep(m):
                    return subm.get(m.group(0), m.group(0))
                b = re.sub(r"(?<![\w'.₀-₉-])(?:«[^»]+»|[A-Za-z_μ][\w'₀-₉-]*)", rep, b)
                invs.append((kind, nl, lm.group(1) or '', b, comment))
                continue
            mm = re.match(r"(\S+) : tie\.Need-(\S+)", body)
            if mm:
                nn = mm.group(2)
                new = need_by_norm.get(norm(nn))
                lines = body.split('\n')
                unf = ''
                k = 1
                while k < len(lines) and lines[k].startswith('unfolding'):
                    unf += lines[k] + '\n'; k += 1
                # continued unfolding lines (indented)
                while k < len(lines) and unf and lines[k].startswith(' ') :
                    unf += lines[k] + '\n'; k += 1
                rest = '\n'.join(lines[k:])
                lm = re.match(r"(?s)(\S+)((?: \S+)*?) =(.*)$", rest)
                if not lm: warn.append(f'need {nn}: not read'); continue
                params = lm.group(2).split()
                b = lm.group(3)
                if new is None:
                    settled = [norm(x) for x in info.get('settled', [])]
                    if b.strip() in ('search rules',): continue
                    report.append(f'  {fpath}: need {nn} has no new name'); 
                    continue
                if not params or params[0] != 'c': warn.append(f'need {nn}: params {params}')
                if b.strip() == 'search rules' and not unf: continue
                nb = convert_body(fn, b, place_of_need[new], new, warn)
                answers.append((new, unf, nb, comment))
                continue
            if re.match(r"pub \S+[-_]spec :", body): continue
            if body.strip(): helpers.append((comment, body))
        # helpers over the start: a let in each answer that cites one
        inl = []
        inl_unf = {}
        for cm, h in list(helpers):
            lines = h.split('\n')
            m1 = re.match(r"(?s)(\S+) : \(c : tie\.Start(?: [\w-]+)*\) → (.*?)\n(unfolding[^\n]*\n)?\1 c = ?(.*)$", h)
            if m1:
                inl.append((m1.group(1), m1.group(2).strip(), m1.group(4).strip()))
                inl_unf[m1.group(1)] = (m1.group(3) or '').strip()
                helpers.remove((cm, h))
        if inl:
            new_answers = []
            for new, unf, b, cm in answers:
                used = []
                for n, ty, bd in inl:
                    if re.search(r"(?<![\w-])%s c(?![\w.'-])" % re.escape(n), b): used.append((n, ty, bd))
                # helpers that cite helpers
                again = True
                while again:
                    again = False
                    for n, ty, bd in inl:
                        if (n, ty, bd) not in used and any(re.search(r"(?<![\w-])%s c(?![\w.'-])" % re.escape(n), u[2]) for u in used):
                            used.append((n, ty, bd)); again = True
                used = [u for u in inl if u in used]
                pre = ''
                for n, ty, bd in used:
                    bb = fix_args(fn, bd)
                    tt_ = fix_args(fn, ty)
                    tt_ = re.sub(r"c\.args\.t(\d+)(?![\w'-])", lambda m: 'c.args.' + (fn.args[int(m.group(1)) - 1] if int(m.group(1)) <= len(fn.args) else 't' + m.group(1)), tt_)
                    bb = re.sub(r"c\.args\.t(\d+)(?![\w'-])", lambda m: 'c.args.' + (fn.args[int(m.group(1)) - 1] if int(m.group(1)) <= len(fn.args) else 't' + m.group(1)), bb)
                    pre += '\n    let %s : %s = %s in' % (n, tt_, bb)
                for n, _, _ in used:
                    b = re.sub(r"\(%s c\)" % re.escape(n), n, b)
                    b = re.sub(r"(?<![\w-])%s c(?![\w.'-])" % re.escape(n), n, b)
                    pre = re.sub(r"(?<![\w-])%s c(?![\w.'-])" % re.escape(n), n, pre)
                for n, _, _ in used:
                    if inl_unf.get(n):
                        extra = [x for x in inl_unf[n].split()[1:] if x not in unf.split()]
                        if extra: unf = ('unfolding ' + ' '.join(extra) + '\n') if not unf else unf.rstrip('\n') + ' ' + ' '.join(extra) + '\n'
                if pre: b = pre + ('\n    ' + b.strip() if not b.startswith('\n') else b)
                new_answers.append((new, unf, b, cm))
            answers = new_answers
        # write
        d = os.path.join(crate_dir, 'proofs', folder)
        os.makedirs(d, exist_ok=True)
        mod = f'Rattle.{crate}.proofs.{fpath}'
        base_uses = [u for u in uses]
        if invs:
            kinds = [i for i in invs]
            s = '\n'.join(base_uses) + f'\nuse {mod}.Given as goal\n'
            for cm, h in helpers:
                hn = re.match(r"abbrev (\S+) :", h)
                if hn and any(re.search(r"(?<![\w'-])%s(?![\w'-])" % re.escape(hn.group(1)), x[3]) for x in invs):
                    s += '\n' + (cm + '\n' if cm else '') + h.rstrip() + '\n'
            for kind, nl, unf, b, cm in invs:
                s += '\n' + (cm + '\n' if cm else '') + f'abbrev pub {kind}-{nl} : goal.{kind}-{nl}\n{unf}{kind}-{nl} l ={b}\n'
            open(os.path.join(d, 'Invariants.antt'), 'w').write(s)
        alluses = ' '.join(uses)
        for w, mod_ in (('ap', 'mathlib.Core.Path'), ('not', 'mathlib.Core.Bool')):
            if w in fn.wants and not re.search(r"[{ ]%s[,}]" % w, alluses): base_uses.append('use %s.{%s}' % (mod_, w))
        if answers:
            s = '\n'.join(base_uses) + f'\nuse {mod}.Goals as goal\n'
            for cm, h in helpers:
                s += '\n' + (cm + '\n' if cm else '') + h.rstrip() + '\n'
            for new, unf, b, cm in answers:
                s += '\n' + (cm + '\n' if cm else '') + f'pub {new} : goal.{new}\n{unf}{new} c ={b}\n'
            open(os.path.join(d, 'Answers.antt'), 'w').write(s)
        if any('tie.' in h for _, h in helpers): warn.append('helper cites tie')
        if warn: report.append(f'{fpath}: ' + '; '.join(sorted(set(warn))))
    print('\n'.join(report))
main()
