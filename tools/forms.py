#!/usr/bin/env python3
"""Counts the places of the older forms in crates/*/src and crates/*/proofs, point by point, and lists them.

    python3 tools/forms.py [1..8] [--list]

1 enums of the shape of Option or Result, and flags with a value beside them; 2 functions that are alike but for types, sizes and constants;
3 loops that count by hand; 4 functions that do by hand what a derive, a trait or a method of std does; 5 facts that three or more contracts
repeat, and runs of parameters that travel together; 6 arrays cut to a length, and slices handed on with a place; 7 matches that choose which
function to call; 8 answers of proofs."""
import collections, glob, re, sys

def sources():
    for path in sorted(glob.glob('crates/*/src/**/*.rt', recursive=True)):
        yield path, open(path).read()

def code(text):
    return re.sub(r'//[^\n]*', '', text)

def functions(text):
    """(name, line, head, body) of each function."""
    for m in re.finditer(r'^( *)(?:pub )?fn (\w+)', text, re.M):
        start, depth, k = m.start(), 0, m.end()
        head_end = None
        while k < len(text):
            c = text[k]
            if c == '{':
                # a clause's braces belong to the head
                line = text[text.rfind('\n', 0, k) + 1:k]
                if depth == 0 and not re.match(r'\s*(requires|ensures|ghost)\b', line) and head_end is None:
                    head_end = k
                depth += 1
            elif c == '}':
                depth -= 1
                if depth == 0 and head_end is not None:
                    break
            elif c == ';' and depth == 0 and head_end is None and '[' not in text[text.rfind('\n', 0, k) + 1:k]:
                break
            k += 1
        if head_end is not None:
            yield m.group(2), text.count('\n', 0, start) + 1, text[start:head_end], text[head_end:k + 1]

def point_1():
    for path, text in sources():
        for m in re.finditer(r'^(?:pub )?enum (\w+)[^{]*\{(.*?)^\}', text, re.M | re.S):
            variants = re.findall(r'^    (\w+)(\([^\n]*\)| \{)?,?$', code(m.group(2)), re.M)
            full = [v for v, payload in variants if payload]
            refuses = any(v in ('Refused', 'Wrong', 'Malformed', 'Outside', 'Room', 'Not', 'Unfinished') for v, _ in variants)
            if (len(variants) == 2 and full) or (len(variants) == 3 and refuses and full):
                yield path, text.count('\n', 0, m.start()) + 1, 'enum ' + m.group(1)
        for m in re.finditer(r'^(?:pub )?struct (\w+)[^{;(]*\{(.*?)^\}', text, re.M | re.S):
            if re.search(r'^    (?:pub )?(ok|declined|found|valid|some): bool', m.group(2), re.M):
                yield path, text.count('\n', 0, m.start()) + 1, 'struct ' + m.group(1)


TYPES = r'\b(?:u8|u16|u32|u64|usize|i32|i64|f64|bool)\b'

def shape(name, head, body):
    text = code(head + body)
    text = re.sub(r'^\s*(requires|ensures|ghost)\b.*$', '', text, flags=re.M)
    text = re.sub(r'#\[[^\n]*\]', '', text)
    text = re.sub(r'\b' + name + r'\b', 'F', text)
    text = re.sub(r'b?"[^"]*"', 'S', text)
    text = re.sub(r"b?'.'", 'N', text)
    text = re.sub(r'\b(?:0x[0-9a-f_]+|\d[\d_]*(?:\.\d+)?)(?:u8|u16|u32|u64|usize|f64)?\b', 'N', text)
    text = re.sub(TYPES, 'T', text)
    text = re.sub(r'\b(?:true|false)\b', 'N', text)
    text = re.sub(r'\bpub ', '', text)
    return re.sub(r'\s+', ' ', text).strip()

def renamed(text):
    """Variables by the order in which they come."""
    seen = {}
    keep = {'fn', 'let', 'mut', 'if', 'else', 'while', 'for', 'in', 'match', 'return', 'loop', 'as', 'F', 'S', 'N', 'T', 'self', 'Self'}
    def one(m):
        w = m.group(0)
        if w in keep or m.string[m.end():m.end() + 1] in ('(', ':', '!') and m.string[m.end():m.end() + 2] != ': ' or m.string[m.start() - 2:m.start()] == '::' or w[0].isupper():
            return w
        return seen.setdefault(w, 'v%d' % len(seen))
    return re.sub(r'\b[A-Za-z_]\w*\b', one, text)

def point_2():
    groups = collections.defaultdict(list)
    for path, text in sources():
        for name, line, head, body in functions(text):
            if name == 'main' or body.count(';') + body.count('\n') < 2:
                continue
            groups[renamed(shape(name, head, body))].append((path, line, name))
    for members in groups.values():
        if len(members) > 1:
            for path, line, name in members:
                yield path, line, 'fn %s (one of %d)' % (name, len(members))
    structs = collections.defaultdict(list)
    for path, text in sources():
        for m in re.finditer(r'^(?:pub )?(?:struct|enum) (\w+)[^{;(]*\{(.*?)^\}', text, re.M | re.S):
            fields = re.sub(r'\s+', ' ', re.sub(r': [^,]*,', ': T,', code(m.group(2))))
            structs[fields].append((path, text.count('\n', 0, m.start()) + 1, m.group(1)))
    for members in structs.values():
        if len(members) > 1:
            for path, line, name in members:
                yield path, line, 'type %s (one of %d)' % (name, len(members))

def point_3():
    for path, text in sources():
        for m in re.finditer(r'^( *)while ([^\n{]*)\{\n(.*?)^\1\}', text, re.M | re.S):
            names = set(re.findall(r'[a-z_]\w*', m.group(2)))
            counted = [v for v in re.findall(r'^\s*(\w+) [+-]= 1;', m.group(3), re.M) if v in names]
            if counted:
                yield path, text.count('\n', 0, m.start()) + 1, 'while ' + m.group(2).strip()

BY_HAND = r'(copy|agree|max|min|larger|less|less_than|room|narrow|raise|fill_\w+|put_(?:short|long|seen)|store_(?:node|height)|waiting|length_at|age|is_given|are_given|wrapping_mul|high_mul|wide_mul|rotate_left|magnitude|are_marks|all_seen|are_positive|compare|no_\w+|\w+_room|\w+_short|blank|move_named|chosen|words)'

def point_4():
    for path, text in sources():
        for name, line, head, body in functions(text):
            if re.fullmatch(BY_HAND, name):
                yield path, line, 'fn ' + name
        if '/lines/' in path:
            for name, line, head, body in functions(text):
                if 'impl Write' in head and 'fn fmt' not in head:
                    yield path, line, 'prints: fn ' + name

def point_5():
    facts = collections.defaultdict(list)
    runs = collections.defaultdict(list)
    for path, text in sources():
        for name, line, head, body in functions(text):
            for clause in re.findall(r'^\s*requires \{ (.*) \}$', head, re.M):
                facts[re.sub(r'\.(?:now|old)\b', '', clause)].append((path, line, name))
            for run in (r'pairs: &(?:mut )?\[u16\],\s*parents: &(?:mut )?\[u16\],\s*heights: &(?:mut )?\[f64\],\s*root: usize', r'minima: &\[f64\],\s*maxima: &\[f64\]'):
                if re.search(run, head):
                    runs[run.split(':')[0]].append((path, line, name))
    for clause, places in facts.items():
        if len(places) >= 3:
            for path, line, name in places:
                yield path, line, 'fn %s requires %s (one of %d)' % (name, clause, len(places))
    for run, places in runs.items():
        for path, line, name in places:
            yield path, line, 'fn %s takes %s.. (one of %d)' % (name, run, len(places))

def point_6():
    for path, text in sources():
        for m in re.finditer(r'&mut \w+\[\.\.\w*\]|&\w+\[\.\.\w+\]', code(text)):
            yield path, code(text).count('\n', 0, m.start()) + 1, m.group(0)
        for name, line, head, body in functions(text):
            if re.search(r'(?:s|out): &(?:mut )?\[u8\],\s*at: usize', head):
                yield path, line, 'fn %s: a slice and a place' % name

def point_7():
    for path, text in sources():
        for name, line, head, body in functions(text):
            arms = re.findall(r'^\s*(?:\| )?[A-Z]\w*::\w+(?:\([^)]*\))? => (?:\{\s*)?(?:return )?([a-z_][\w:.]*)\(', body, re.M)
            if len(arms) >= 3:
                yield path, line, 'fn %s: %d arms that call' % (name, len(arms))
        for m in re.finditer(r'\bfn\(|\bdyn Fn|&dyn ', code(text)):
            yield path, code(text).count('\n', 0, m.start()) + 1, m.group(0)

def point_8():
    for path in sorted(glob.glob('crates/*/proofs/**/Answers.antt', recursive=True)):
        for k, line in enumerate(open(path), 1):
            m = re.match(r'pub (\S+) : goal\.', line)
            if m:
                yield path, k, m.group(1)

def main():
    wanted = [a for a in sys.argv[1:] if a.isdigit()] or [str(k) for k in range(1, 9)]
    for point in wanted:
        places = list(globals()['point_' + point]())
        print('%s: %d places' % (point, len(places)))
        if '--list' in sys.argv:
            for path, line, what in places:
                print('  %s:%d %s' % (path, line, what))

main()
