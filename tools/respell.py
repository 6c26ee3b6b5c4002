#!/usr/bin/env python3
"""Brings the repository's own definitions and lemmas in antt to today's spelling. Run at the top of the checkout.

A word is in snake case; a dash in a lemma's name stays only between two names of functions, or after a fact.
In a generic function's clauses the number that its bound `M: Modular` gives is `M.modulus`.
Renamed is what specs/*.antt and proofs/**/*.antt declare, and nothing that Rattle or its libraries make.
`--list` prints what becomes what, `--check` also what looks doubtful; neither changes a file.
"""
import collections, glob, os, re, sys

# A name that falls together with another one, or that the rules spell badly.
# A definition is named by its module, a record's field by the word `field`.
EXCEPTIONS = {
    # a lemma that would have its function's name
    'Rattle.arithmetic.proofs.WholeMersenne.none-divides': 'none_divides_lem',
    'Rattle.tables.proofs.HalvingSteps.on_line': 'on_line_lem',
    # lemmas that would have the name of the function that they speak of
    'Rattle.circuits.proofs.Parts.gate-at': 'get_or-gates_of',
    'Rattle.programs.proofs.RightTalk.is-believed': 'believed_of_is_believed',
    'Rattle.verifier.proofs.PointParts.no-layer': 'size_below_none',
    'Rattle.judging.proofs.PointParts.no-layer': 'size_below_none',
    # beside the library's functions
    'Rattle.texts.proofs.Writing.is_ok': 'is_ok_of_ok',
    # `getD` is `get_or` now
    'Rattle.tables.proofs.Points.getD-reduced': 'get_or_reduced',
    'Rattle.verdicts.proofs.Stopping.getD-second': 'get_or-drop_one',
    'Rattle.judging.proofs.Stopping.getD-second': 'get_or-drop_one',
    # a test of four lists, beside `allReduced` of one
    'Rattle.verdicts.proofs.Soundly.all-reduced': 'lists_reduced',
    'Rattle.judging.proofs.Soundly.all-reduced': 'lists_reduced',
    # beside the function `inputsBelow`
    'field inputs-below': 'inputs_reduced',
    # fields beside the functions `coinsLeft` and `wordsLeft`, which they speak of
    'field coins-left': 'coins_to_come',
    'field words_left': 'words_to_come',
}

# Names of functions and of what laws are called after, besides those that a file has in scope.
FUNCTIONS = set("""length take drop map append set get zip fold sum mod mul add sub pow min max replicate concat reverse eqb
    cond and or not all nat reduce inverse filter swap insert zero one suc le lt nil cons get_or""".split())

KEYWORDS = set("""pub abbrev unfoldable opaque private record data module use open let in where unfolding mutual infixl infixr
    infix as ghost mod absurd refl omega search simp rw cc rules arith case match if then else with do forall λ Type
    fn struct enum impl trait const static type mut ref self Self crate super return break continue loop while for move box
    requires ensures invariant decreases result old new now true false prove unsafe extern dyn async await""".split())

TOKEN = re.compile(r'[^ \t\n\r(){},;."`⌜⌝]+')
CAMEL = re.compile(r"[a-z]\S*?[a-z0-9][A-Z]")
UPPER = re.compile(r'[A-Z][A-Za-z0-9]+')


def snake_part(part):
    """A part of a name: a fact keeps its capital, and so does a name of one capital."""
    if not part or part[0].isupper():
        return part
    return re.sub(r'(?<=[a-z0-9])[A-Z]+', lambda m: '_' + m.group(0).lower(), part)


def code_of(line):
    m = re.search(r'(^|\s)--(?=\s|$|-)', line)
    return (line[:m.start()], line[m.start():]) if m else (line, '')


def antt_files():
    return sorted(f for f in glob.glob('crates/*/specs/**/*.antt', recursive=True)
                  + glob.glob('crates/*/proofs/**/*.antt', recursive=True))


def rt_files():
    return sorted(glob.glob('crates/*/src/**/*.rt', recursive=True))


def module_of(path):
    p = path[:-len('.antt')].split('/')
    return 'Rattle.' + '.'.join(p[1:])


def declarations(path, text):
    """(kind, name, owner) of what a file declares in its modules; kinds def, lemma, record, data, field, con."""
    out, stack, pending = [], [(0, 'top', None)], None
    for raw in text.split('\n'):
        line = code_of(raw)[0].rstrip()
        if not line.strip():
            continue
        indent = len(line) - len(line.lstrip())
        while indent < stack[-1][0]:
            stack.pop()
        level, kind, owner = stack[-1]
        if indent != level:
            if pending and line.endswith('where'):
                stack.append(pending)
                pending = None
            continue
        words, pending, mods = line.split(), None, []
        while words and words[0] in ('pub', 'abbrev', 'unfoldable', 'private', 'opaque'):
            mods.append(words.pop(0))
        if not words or words[0] in ('use', 'open', 'unfolding', 'infixl', 'infixr', 'infix', 'mod', 'where', 'let'):
            continue
        head = {'module': 'top', 'record': 'field', 'data': 'con', 'mutual': 'top'}.get(words[0])
        if head and (kind == 'top') and (words[0] == 'mutual' or len(words) > 1):
            if words[0] in ('record', 'data'):
                out.append((words[0], words[1], None))
            inner = (indent + 2, head, words[1] if len(words) > 1 else None)
            if words[0] == 'mutual' or line.endswith('where'):
                stack.append(inner)
            else:
                pending = inner
            continue
        rest = ' '.join(words)
        m = re.match(r'([^\s(){}.,;]+)((?:\s[^=]*?)?)\s:\s', rest + ' ')
        if not m or '=' in m.group(2):
            continue
        name, typed = m.group(1), rest[m.end():]
        if kind in ('field', 'con') and re.fullmatch(r'[^(){}]*', m.group(2)):
            out += [(kind, n, owner) for n in m.group(2).split()]
        if kind == 'field':
            out.append(('field', name, owner))
        elif kind == 'con':
            out.append(('con', name, owner))
        elif re.match(r'(goal|given|need)\.', typed):
            continue  # an answer: Rattle makes the name
        elif '/specs/' in path or 'abbrev' in mods or 'unfoldable' in mods:
            out.append(('def', name, typed))
        else:
            out.append(('lemma', name, typed))
    return out


IMPORT = re.compile(r'(?:^|(?<=\n))[ ]*(?:ghost )?use ([^\s{};]+?)(?:\.\{([^}]*)\})?(?: as (\S+?))?;?[ ]*(?=\n|$)')


class World:
    def __init__(self):
        self.text = {f: open(f, encoding='utf-8').read() for f in antt_files()}
        self.declared = {f: declarations(f, t) for f, t in self.text.items()}
        self.module = {module_of(f): f for f in self.text}
        self.names = {m: {n: k for k, n, _ in self.declared[f]} for m, f in self.module.items()}
        self.defs = {m: {n for k, n, _ in self.declared[f] if k == 'def'} for m, f in self.module.items()}
        self.fields = {n for d in self.declared.values() for k, n, _ in d if k == 'field'}
        self.spell()

    def imports(self, text):
        """(path, [(name, alias)] or None, alias of the whole) of each import."""
        code = '\n'.join(code_of(l)[0] for l in text.split('\n'))
        for m in IMPORT.finditer(code):
            names = None
            if m.group(2) is not None:
                names = []
                for part in m.group(2).split(','):
                    w = part.split()
                    if w:
                        names.append((w[0], w[2] if len(w) == 3 and w[1] == 'as' else None))
            yield m.group(1), names, m.group(3)

    def owner_names(self, path):
        """The own names below an import's path, each with its new spelling: a module's, or those of a record or data type."""
        if path in self.names:
            return {n: self.field.get(n, n) if k == 'field' else self.at[path].get(n, n) for n, k in self.names[path].items()}
        up, _, last = path.rpartition('.')
        if up in self.names and self.names[up].get(last) in ('record', 'data'):
            return {n: self.field.get(n, n) if k == 'field' else self.at[up].get(n, n)
                    for k, n, o in self.declared[self.module[up]] if o == last}
        return None

    def spell(self):
        """The one new spelling of each old one."""
        kinds = collections.defaultdict(set)
        for f in self.text:
            for k, n, _ in self.declared[f]:
                kinds[n].add(k)
        self.kinds = kinds
        # the functions that a file has in scope, by their old and new names
        keep = collections.defaultdict(set)
        for f, t in self.text.items():
            scope = set(self.defs[module_of(f)])
            for path, names, _ in self.imports(t):
                own = self.defs.get(path)
                for n, a in names or []:
                    if own is None and path not in self.names or own and n in own:
                        scope.add(a or n)
            scope = {n for n in scope if n[0].islower() and '-' not in n}
            scope |= FUNCTIONS
            for k, n, _ in self.declared[f]:
                if k in ('lemma', 'def') and '-' in n:
                    parts = n.split('-')
                    for i in range(len(parts) - 1):
                        left, right = parts[i], parts[i + 1]
                        ended = any(left.endswith('_' + x) or left == x for x in scope)
                        begun = any(right.startswith(x + '_') or right == x for x in scope)
                        if (ended and begun) or (UPPER.fullmatch(left) and right) or (ended and UPPER.fullmatch(right)):
                            keep[n].add(i)
        general = {}
        for n, ks in kinds.items():
            if ks & {'record', 'data'} or '◌' in n or re.search(r'[→≤≡∷]', n):
                continue
            parts = n.split('-')
            out = snake_part(parts[0])
            for i, part in enumerate(parts[1:]):
                out += ('-' if i in keep[n] and 'field' not in ks else '_') + snake_part(part)
            general[n] = out
        # by module, of fields, and for pages and comments by the spelling alone
        self.at, self.field, self.new = {}, {}, {}
        for f, declared in self.declared.items():
            m = module_of(f)
            self.at[m] = {}
            for k, n, _ in declared:
                out = general.get(n, n)
                if k == 'field':
                    out = EXCEPTIONS.get('field ' + n, out)
                    into = self.field
                else:
                    out = EXCEPTIONS.get(m + '.' + n, out)
                    into = self.at[m]
                if out != n:
                    into[n] = out
                    if n not in self.new or k == 'def':
                        self.new[n] = out

    # what a file may call by a bare name
    def scope(self, f, text):
        own, foreign, modules = {}, {}, {}
        if f in self.declared:
            m = module_of(f)
            for k, n, _ in self.declared[f]:
                own[n] = self.field.get(n, n) if k == 'field' else self.at[m].get(n, n)
        for path, names, alias in self.imports(text):
            below = self.owner_names(path)
            if names is None:
                if alias and below is not None:
                    modules[alias] = below
                continue
            for n, a in names:
                if below is not None and n in below:
                    own[a or n] = self.alias(a) if a else below[n]
                elif a and self.alias(a) != a:
                    own[a] = self.alias(a)
                else:
                    foreign[a or n] = path
        for m in re.finditer(r'(?:^|\n)\s*open \S+ use \{([^}]*)\}', text):
            own.update({n.strip(): self.field.get(n.strip(), n.strip()) for n in m.group(1).split(',') if n.strip() in self.fields})
        for n in foreign:
            own.pop(n, None)
        return own, foreign, modules

    @staticmethod
    def local(tok, foreign):
        """A name that is bound where it stands, in camel case, in today's spelling."""
        if tok not in foreign and CAMEL.match(tok):
            return snake_part(tok)
        return None

    def turn(self, text, own, foreign, modules, log=None):
        """A piece of antt with its names turned."""
        out, at, last = [], 0, None
        for m in TOKEN.finditer(text):
            tok, start, end = m.group(0), m.start(), m.end()
            if tok in own or tok in self.new or tok in self.field or modules or CAMEL.match(tok):
                before = text[start - 1] if start else ' '
                projected = before == '.' and start > 1 and text[start - 2] not in ' \n'
                base = ''
                if projected:
                    base = re.search(r'[^ \t\n(){},;"`]*$', text[:start - 1]).group(0)
                key = re.match(r'\s*=\s', text[end:end + 3]) and re.search(r'[{;]\s*$', text[:start])
                new = None
                if projected:
                    if base in modules:
                        new = modules[base].get(tok)
                    elif not re.match(r'(goal|given|need|Rattle|native|lib)\b', base):
                        new = self.field.get(tok)
                elif key and tok in self.fields:
                    new = self.field.get(tok, tok)
                else:
                    new = own[tok] if tok in own else self.local(tok, foreign)
                if new is not None and new != tok:
                    out.append(text[at:start])
                    out.append(new)
                    at = end
                elif new is None and tok in self.new and log is not None:
                    log.append((tok, base if projected else None, text.count('\n', 0, start) + 1))
        out.append(text[at:])
        return ''.join(out)

    def turn_imports(self, text):
        """The lists of names in imports, and the lists of opened fields."""
        def imported(m):
            path, names = m.group(2), m.group(3)
            below = self.owner_names(path)
            if below is None:
                below = {}

            def one(p):
                w = p.split()
                if not w:
                    return p
                lead = p[:len(p) - len(p.lstrip())]
                tail = p[len(p.rstrip()):]
                w[0] = below.get(w[0], w[0])
                if len(w) == 3:
                    w[2] = self.alias(w[2])
                    if w[0] == w[2]:
                        w = w[:1]
                return lead + ' '.join(w) + tail
            return m.group(1) + path + '.{' + ','.join(one(p) for p in names.split(',')) + '}'
        return re.sub(r'((?:^|(?<=\n))[ ]*(?:ghost )?use )([^\s{};]+?)\.\{([^}]*)\}', imported, text)

    @staticmethod
    def alias(a):
        return snake_part(a).replace('-', '_') if a[0].islower() else a

    def turn_comment(self, comment):
        """In a comment: what stands in backticks, and words in camel case that are names."""
        def quoted(m):
            return '`' + TOKEN.sub(lambda t: self.new.get(t.group(0), t.group(0)), m.group(1)) + '`'
        comment = re.sub(r'`([^`\n]+)`', quoted, comment)
        return re.sub(r'[A-Za-z][A-Za-z0-9_\'-]*',
                      lambda t: self.new.get(t.group(0), t.group(0)) if re.search(r'[a-z0-9][A-Z]', t.group(0)) else t.group(0), comment)

    def antt(self, f, log=None):
        text = self.text[f]
        own, foreign, modules = self.scope(f, text)
        text = self.turn_imports(text)
        # comments apart, code as one text so that a projection sees what it stands on
        lines = text.split('\n')
        codes, comments = zip(*(code_of(l) for l in lines))
        code = '\n'.join(codes)
        parts = re.split(r'((?:^|(?<=\n))use [^\n]*)', code)
        done = ''.join(p if i % 2 else self.turn(p, own, foreign, modules, log) for i, p in enumerate(parts))
        return '\n'.join(c + self.turn_comment(k) for c, k in zip(done.split('\n'), comments))

    def ghost_regions(self, text):
        """Start and end of each stretch of contract text in a Rattle source: clauses, ghost members, ghost imports."""
        out = []
        for m in re.finditer(r'(?:^|\n)[ ]*ghost use [^\n]*', text):
            out.append((m.start(), m.end()))
        for m in re.finditer(r'(?:^|\n)[ ]*(?:pub )?(?:requires|ensures|invariant|decreases|ghost(?= (?!use )))\b[^\n{;]*\{', text):
            depth, i = 1, m.end()
            while depth and i < len(text):
                depth += {'{': 1, '}': -1}.get(text[i], 0)
                i += 1
            out.append((m.end(), i - 1))
        return sorted(out)

    def rt(self, f, text, log=None):
        own, foreign, modules = self.scope(f, text)
        regions = self.ghost_regions(text)
        out, at = [], 0
        for s, e in regions:
            out.append(self.outside(text[at:s]))
            piece = text[s:e]
            if re.match(r'\n?[ ]*ghost use ', piece):
                piece = self.turn_imports(piece)
            else:
                piece = self.turn(piece, own, foreign, modules, log)
            out.append(piece)
            at = e
        out.append(self.outside(text[at:]))
        return ''.join(out)

    def outside(self, text):
        """Code: only its comments are looked at."""
        return re.sub(r'(?m)(^|\s)//[^\n]*', lambda m: self.turn_comment(m.group(0)), text)

    def edit(self, text):
        """A must-fail edit: the lines that are contract text of one of the crate's names."""
        def line(m):
            if re.search(r'\b(ghost use|requires|ensures|ghost)\b', m.group(0)) or re.search(r'[≡λ∷ℕ]', m.group(0)):
                return TOKEN.sub(lambda t: self.new.get(t.group(0), t.group(0)), m.group(0))
            return m.group(0)
        return re.sub(r'(?m)^.*$', line, text)

    def doc(self, text):
        """A page: what stands in backticks, and is a name in camel case or nothing but one name."""
        declared = collections.defaultdict(set)
        for m, names in self.names.items():
            for n, k in names.items():
                now = self.field.get(n, n) if k == 'field' else self.at[m].get(n, n)
                declared[now.replace('-', '_')].add(now)
        def quoted(m):
            inner = m.group(1)
            if inner in self.new:
                return '`' + self.new[inner] + '`'
            # a name that was respelled before, and not on the pages
            now = declared.get(snake_part(inner).replace('-', '_'), set())
            if re.fullmatch(r'[a-z][A-Za-z0-9_\'-]*', inner) and re.search(r'-|[a-z][A-Z]', inner) and inner not in declared and len(now) == 1:
                return '`' + min(now) + '`'
            return '`' + TOKEN.sub(lambda t: self.new.get(t.group(0), t.group(0))
                                   if re.search(r'[a-z0-9][A-Z]', t.group(0)) else t.group(0), inner) + '`'
        return re.sub(r'`([^`\n]+)`', quoted, text)


def main():
    if not os.path.isdir('crates'):
        sys.exit('run this at the top of the checkout')
    w = World()
    if '--list' in sys.argv:
        for n, new in sorted({(n, new) for t in [w.field] + list(w.at.values()) for n, new in t.items()}):
            print(n, '->', new, ','.join(sorted(w.kinds[n])))
        return
    dry = '--check' in sys.argv
    changes, logs = {}, {}
    for f in w.text:
        logs[f] = []
        changes[f] = w.antt(f, logs[f])
    for f in rt_files():
        logs[f] = []
        changes[f] = w.rt(f, open(f, encoding='utf-8').read(), logs[f])
    for f in sorted(glob.glob('crates/*/must-fail/*.edit')):
        changes[f] = w.edit(open(f, encoding='utf-8').read())
    for f in sorted(glob.glob('docs/*.md')) + ['README.md']:
        if os.path.exists(f):
            changes[f] = w.doc(open(f, encoding='utf-8').read())
    bad = check(w, changes)
    if dry:
        for f in logs:
            for tok, base, n in logs[f]:
                print('left alone:', f, n, (base + '.' if base is not None else '') + tok)
    if bad and not dry:
        sys.exit('nothing changed')
    if dry:
        return
    count = 0
    for f, new in changes.items():
        if open(f, encoding='utf-8').read() != new:
            open(f, 'w', encoding='utf-8').write(new)
            count += 1
    print('respelled %d names in %d files, and the modulus in %d' % (len(w.new), count, name_modulus()))


def name_modulus():
    """Writes `modulus` as a member of the bound in the clauses of functions that are generic over `M: Modular`."""
    count = 0
    for path in rt_files():
        with open(path, encoding='utf-8') as f:
            text = f.read()
        generic, lines = False, []
        for line in text.split('\n'):
            if re.match(r'\s*(pub(\(\w+\))? )?(extern "C" )?fn ', line):
                generic = 'M: Modular' in line
            if generic and re.match(r'\s*(requires|ensures)\b', line):
                line = re.sub(r"(?<![\w.'-])modulus(?![\w'-])", 'M.modulus', line)
            lines.append(line)
        if '\n'.join(lines) != text:
            with open(path, 'w', encoding='utf-8') as f:
                f.write('\n'.join(lines))
            count += 1
    return count


def check(w, changes):
    """Two names that fall together, a keyword, a name that a file already uses for something else."""
    bad = 0

    def say(*words):
        nonlocal bad
        bad += 1
        print('clash:', *words)
    for n, new in w.new.items():
        if new in KEYWORDS:
            say(n, 'becomes the keyword', new)
    for f in changes:
        if not f.endswith(('.antt', '.rt')):
            continue
        text = w.text[f] if f in w.text else open(f, encoding='utf-8').read()
        own, foreign, modules = w.scope(f, text)
        if f in w.text:
            code = '\n'.join(code_of(l)[0] for l in text.split('\n'))
        else:
            code = '\n'.join(text[s:e] for s, e in w.ghost_regions(text))
            code += '\n' + ' '.join(re.findall(r'\b([a-z_0-9]+)\s*:(?!:)', text))
        bare = {m.group(0) for m in TOKEN.finditer(code)
                if not (m.start() > 1 and code[m.start() - 1] == '.' and code[m.start() - 2] not in ' \n')}
        by = collections.defaultdict(set)
        for n in bare:
            by[own[n] if n in own else w.local(n, foreign) or n].add(n)
        for new, olds in sorted(by.items()):
            if len(olds) > 1:
                say(f, ', '.join(sorted(olds)), 'all become', new)
        for n in sorted(set(foreign)):
            if f in w.text and n in {x for _, x, _ in w.declared[f]}:
                say(f, n, 'is declared, and imported from', foreign[n], 'too')
        if f in w.text:
            scopes = collections.defaultdict(set)
            for k, n, o in w.declared[f]:
                scopes[o if k == 'field' else None, own.get(n, n)].add(n)
            for (_, new), olds in scopes.items():
                if len(olds) > 1:
                    say(f, ', '.join(sorted(olds)), 'are declared and become', new)
    return bad


main()
