# Counts the places of points 1 to 7 of docs/DESIGN-PASS.md in crates/*/src. Run from the top folder: python3 tools/count_places.py POINT
# where POINT is enums, structs, codes, twins, loops, byhand, locals, facts, groups, buffers or switches.
import collections, glob, re, sys


def files():
    for f in sorted(glob.glob('crates/*/src/*.rt')):
        yield f.replace('crates/', '').replace('/src', ''), [re.sub(r' *//.*', '', x) for x in open(f).read().split('\n')]


def fns():  # each function: where, name, its signature with its contract as one line, the lines of its body, the number of the first of these
    for f, L in files():
        for i, l in enumerate(L):
            m = re.match(r'( *)(?:pub(?:\(crate\))? )?(?:extern "C" )?fn (\w+)', l)
            if m:
                e = next(j for j in range(i, len(L)) if L[j] == m[1] + '}')
                b = next(j for j in range(i, e) if L[j] == m[1] + '{' or L[j].endswith('{') and not re.search('requires|ensures', L[j]))
                yield '%s:%d' % (f, i + 1), m[2], ' '.join(L[i:b + 1]), L[b + 1:e], b + 2


def items(kind):  # each struct or enum: where, name, its fields or variants
    for f, L in files():
        s = '\n'.join(L)
        for m in re.finditer(r'^(?:pub )?' + kind + r' (\w+)(?:<[^>]*>)? \{\n(.*?)\n\}', s, re.S | re.M):
            yield '%s:%d' % (f, s[:m.start()].count('\n') + 1), m[1], [x.strip().replace('pub ', '').rstrip(',') for x in m[2].split('\n') if x.strip()]


def parameters(sig):
    m = re.search(r'fn \w+(?:<[^>]*>)?\((.*?)\)\s*(?:->|requires|ensures|\{|$)', sig)
    return {re.sub(r"'\w+ ", '', p.strip()) for p in re.split(r',\s*(?![^()]*\))', m[1]) if p.strip()} if m else set()


def enums():
    for w, n, v in items('enum'):
        bare = [x for x in v if '(' not in x]
        shape = 'Result' if 'Refused(Refusal)' in v else 'Option' if len(v) == 2 and len(bare) == 1 else 'other'
        print(shape, w, n, ' | '.join(v))


def structs():
    for w, n, v in items('struct'):
        print(w, n, '{', ', '.join(v), '}')


def codes():  # constants that are a kind's number, values that stand for none, results that are such numbers
    for f, L in files():
        for i, l in enumerate(L):
            if re.match(r'(pub )?const \w+: (u8|u64|usize) = (0x[0-9a-f]+|\d+);', l) and (f.startswith(('gateway/', 'gateway_calls/')) and not re.search(' (SLOT|MOST_PAIRS):', l) or '_BYTE: ' in l):
                print('constant', '%s:%d' % (f, i + 1), l.split(' const ')[-1].replace('const ', ''))
            if re.search(r'\b(count|k): 255,|offered: u32::MAX|return store::SLOT \+ 1|^    (69631|16)$', l):
                print('none', '%s:%d' % (f, i + 1), l.strip())
    for w, n, sig, body, at in fns():
        if n.startswith('opacity_') and sig.split('->')[-1].strip().startswith('u8'):
            print('result', w, n, '-> u8')


def mask(t):
    seen = {}
    t = re.sub(r'\b(0x[0-9a-f_]+|\d[\d_]*(?:u8|u32|u64|usize)?)\b', '9', re.sub(r',?\s*\)', ')', re.sub(r'\(\s+', '(', t)))
    words = set('let mut while if else return match loop break as for in true false self'.split())
    return re.sub(r'[A-Za-z_]\w*', lambda m: m[0] if m[0] in words else seen.setdefault(m[0], 'x%d' % len(seen)), t)


def twins():  # functions with the same body, names and numbers masked; types with the same fields or variants, types masked
    G = collections.defaultdict(list)
    for w, n, sig, body, at in fns():
        G[mask(re.sub(r'\s+', ' ', ' '.join(body)).strip())].append(w + ' ' + n)
    g = [v for v in G.values() if len(v) > 1]
    for v in sorted(g, key=len, reverse=True):
        print('functions', len(v), '; '.join(v))
    T = collections.defaultdict(list)
    for kind in ('struct', 'enum'):
        for w, n, v in items(kind):
            T[kind, tuple(sorted(re.sub(r'^\w+(?=\()', 'X', re.sub(r': .*', '', x)) for x in v)) if kind == 'struct' else tuple(sorted('()' if '(' in x else '-' for x in v))].append(w + ' ' + n)
    t = [v for v in T.values() if len(v) > 1]
    for v in sorted(t, key=len, reverse=True):
        print('types', len(v), '; '.join(v))
    print(len(g), 'groups of', sum(map(len, g)), 'functions;', len(t), 'groups of', sum(map(len, t)), 'types')


def loops():
    for w, n, sig, body, at in fns():
        for j, l in enumerate(body):
            m = re.match(r"( *)(?:'\w+: )?(while|loop|for)\b(.*)\{$", l)
            if m:
                B = body[j + 1:next(k for k in range(j, len(body)) if body[k] == m[1] + '}')]
                step = [x.strip() for x in B if re.match(re.escape(m[1]) + r'    \w+ [+-]= \w+;|' + re.escape(m[1]) + r'    (at|have) = ', x)]
                bits = any(re.search(r'&= \w+ - 1', x) for x in B)
                kind = 'for' if m[2] == 'for' else 'up' if any('+= 1;' in x for x in step) else 'down' if any('-= 1;' in x for x in step) \
                    else 'bits' if bits else 'step' if step else 'other'
                print(kind, w.split(':')[0] + ':%d' % (at + j), n, m[2] + m[3].rstrip(), '|', ' '.join(step))


BY_HAND = dict(
    equality='same same_entries same_symbols matches unchanged same_secrets going closed is_leak',
    order='larger smaller least with_place limit count_after one_less unread upper_bound wait',
    copy='copy clear joined write_front rest load_bytes store_bytes table_of copy_of keep_table keep repeat push_symbol push_entry remembered_of estimator_of with_flag with_status put_rows',
    conversion='number notion_of notion_byte verdict_byte valid_byte wide half_at word_at store_number load_words store_words number_of byte_at front_size length_of gathering '
    'choose_answer place digit with_digit slot_of byte_of number_at numbers',
    printing='text number digit field dash verdict_field judgement_fields more_symbols symbols_field refusal_field put show show_run show_name show_answer put_word put_pair put_pairs')


def byhand():  # functions by name, found by reading
    F = collections.defaultdict(list)
    for w, n, sig, body, at in fns():
        F[n].append(w)
    only = dict(number=dict(conversion='refusal', printing='report'), word_at=dict(conversion='layout witness/lib'), digit=dict(conversion='gateway_calls', printing='report'),
                number_of=dict(conversion='canonical'), put=dict(printing='report'), put_pair=dict(printing='report'), number_at=dict(conversion='gateway_calls'),
                numbers=dict(conversion='encoding'), place=dict(conversion='monitor streams'), length_of=dict(conversion='leak_sample log_sample'), byte_of=dict(conversion='gateway_calls'))
    for kind, names in BY_HAND.items():
        for n in names.split():
            for w in F[n]:
                if n not in only or any(w.startswith(x) for x in only[n].get(kind, '').split()):
                    print(kind, w, n)


def locals_():  # `let x = s.x;` before `x` is used, and `x: x,` in a literal
    for f, L in files():
        for i, l in enumerate(L):
            if re.match(r' +let (\w+) = \w+\.\1;$', l):
                print('local', '%s:%d' % (f, i + 1), l.strip())
            if re.match(r' +(\w+): \1,?$', l):
                print('field', '%s:%d' % (f, i + 1), l.strip())


def facts():  # texts of requires, each conjunct for itself, in three functions or more; second with the name of the slice masked
    def split(t):
        d, out = 0, ['']
        for c in t:
            d += (c in '({[') - (c in ')}]')
            if c == '×' and d == 0:
                out.append('')
            else:
                out[-1] += c
        return [re.sub(r'^\((.*)\)$', r'\1', re.sub(r'\s+', ' ', x).strip()) for x in out]
    C, M = collections.defaultdict(set), collections.defaultdict(set)
    for w, n, sig, body, at in fns():
        for m in re.finditer(r'\brequires (?:\w+ )?\{(.*?)\}\s*(?=ensures|requires|\{|$)', sig):
            for x in split(m[1]):
                C[x].add((w, n))
                M[re.sub(r'\b[a-z_]+(\.[a-z_]+)*\.(now|old)\b', '_', x)].add((w, n))
    for name, D in (('text', C), ('masked', M)):
        for x, v in sorted(D.items(), key=lambda z: -len(z[1])):
            if len(v) > 2:
                print(name, len(v), x, '|', ', '.join(n for w, n in sorted(v)) if D is C else '')


def groups():  # three or more parameters that stand together, name and type, in five functions or more: the largest groups
    P = {(w, n): frozenset(parameters(sig)) for w, n, sig, body, at in fns()}
    S = {a & b for a in P.values() for b in P.values()}
    R = [(len(v), s, v) for s in S if len(s) > 2 for v in [[k for k in P if s <= P[k]]] if len(v) > 4]
    for c, s, v in sorted(R, key=lambda r: (-r[0], -len(r[1]))):
        print(c, '; '.join(sorted(s)), '|', ', '.join(n for w, n in v))


def buffers():  # functions that take a slice or an array with a count or a place in it
    for w, n, sig, body, at in fns():
        p = dict(x.split(': ', 1) for x in parameters(sig) if ': ' in x)
        b = sorted(k for k, t in p.items() if t.lstrip('&mut ').startswith('['))
        c = sorted(k for k, t in p.items() if re.fullmatch('usize|u8', t) and k in ('n', 'm', 'count', 'size', 'few', 'last', 'pairs', 'times', 'have', 'k'))
        a = sorted(k for k, t in p.items() if t == 'usize' and k in ('at', 'from', 'next', 'first'))
        if b and (c or a):
            print('count' if c else 'place', w, n, ' '.join(b), '|', ' '.join(c), '|', ' '.join(a))
    for w, n, v in items('struct'):
        if any('[' in x for x in v) and sum('[' in x for x in v) + any(x.startswith('count:') for x in v) > 1:
            print('struct', w, n, ', '.join(v))


def switches():  # a test of which call, notion, status, slot or way; and of a flag that says what is asked for
    for f, L in files():
        for i, l in enumerate(L):
            if re.search(r'\bmatch (notion|status|call|how|word|name)\b|\bif !?\(?(call|how|slot|word|asked|open|front\[0\])\b[ .\[=<!]|\bhow ==', l):
                print('%s:%d' % (f, i + 1), l.strip())


dict(enums=enums, structs=structs, codes=codes, twins=twins, loops=loops, byhand=byhand, locals=locals_, facts=facts, groups=groups, buffers=buffers, switches=switches)[sys.argv[1]]()
