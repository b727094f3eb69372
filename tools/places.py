#!/usr/bin/env python3
"""Every place of the eight points in crates/*/src/*.rt and crates/*/proofs, by the text alone.

    python3 tools/places.py ROOT [fn]

A line each, POINT<TAB>crate/file:line<TAB>what; then the counts, per point and kind, and per crate. What the kinds (1a, 4e ..) are, and where
a count differs from a reading, stands in docs/DESIGN-PASS.md. With a second argument the third column has only the name, crate::function.
"""
import sys, collections
import re, os
def blank(src):
    """The text with comments and the insides of strings as spaces; same length, same lines."""
    out = list(src); i = 0; n = len(src)
    def wipe(a, b):
        for j in range(a, b):
            if out[j] != '\n': out[j] = ' '
    while i < n:
        c = src[i]
        if src.startswith('//', i):
            j = src.find('\n', i); j = n if j < 0 else j
            wipe(i, j); i = j
        elif c == '"':
            j = i + 1
            while j < n and src[j] != '"':
                j += 2 if src[j] == '\\' else 1
            wipe(i + 1, j); i = j + 1
        elif c == "'" and src[i-1:i] == 'b':
            j = i + 1
            j += 2 if src[j] == '\\' else 1
            while src[j] != "'": j += 1
            wipe(i + 1, j); i = j + 1
        else: i += 1
    return ''.join(out)
def close(t, i):
    """The place behind the bracket that closes the one at i."""
    pair = {'(': ')', '{': '}', '[': ']', '<': '>'}
    o = t[i]; c = pair[o]; d = 0
    while i < len(t):
        if t[i] == o: d += 1
        elif t[i] == c and not (c == '>' and t[i-1] in '-='):
            d -= 1
            if d == 0: return i + 1
        i += 1
    return i
def split(t, sep=','):
    r = []; d = 0; a = 0
    for i, c in enumerate(t):
        if c in '([{<': d += 1
        elif c in ')]}' or (c == '>' and t[i-1] not in '-='): d -= 1
        elif c == sep and d == 0:
            r.append(t[a:i]); a = i + 1
    r.append(t[a:])
    return [x.strip() for x in r if x.strip()]
class Fn: pass
class File:
    def __init__(self, root, path):
        self.path = path; self.name = os.path.relpath(path, os.path.join(root, 'crates'))
        self.crate = self.name.split('/')[0]
        self.src = open(path, encoding='utf-8').read(); self.t = blank(self.src)
        self.fns = []; self.structs = []; self.enums = []; self.consts = []
        t = self.t
        for m in re.finditer(r'\bfn\s+(\w+)', t):
            f = Fn(); f.name = m.group(1); f.at = m.start(); f.file = self; i = m.end(); f.generics = ''
            if t[i] == '<': j = close(t, i); f.generics = t[i:j]; i = j
            if t[i] != '(': continue
            j = close(t, i); f.ps = []
            for p in split(t[i+1:j-1]):
                a, _, b = p.partition(':'); f.ps.append((a.strip().replace('mut ', ''), ' '.join(b.split())))
            i = j; f.ret = ''; f.req = []; f.ens = []; f.body = ''
            m2 = re.compile(r'\s*->\s*(.*?)\s*(?=\brequires\b|\bensures\b|\{)', re.S).match(t, i)
            if m2: f.ret = ' '.join(m2.group(1).split()); i = m2.end()
            while True:
                m3 = re.compile(r'\s*(requires|ensures)\b\*?\s*(\w+)?\s*\{').match(t, i)
                if not m3: break
                j = close(t, m3.end() - 1)
                (f.req if m3.group(1) == 'requires' else f.ens).append(' '.join(t[m3.end():j-1].split())); i = j
            m4 = re.compile(r'\s*\{').match(t, i)
            if m4: j = close(t, m4.end() - 1); f.body = t[m4.end():j-1]; f.body_at = m4.end(); i = j
            f.end = i; f.line = t.count('\n', 0, f.at) + 1
            self.fns.append(f)
        for m in re.finditer(r'\b(struct|enum)\s+(\w+)\s*([({])', t):
            s = Fn(); s.name = m.group(2); s.file = self; j = close(t, m.end() - 1)
            s.line = t.count('\n', 0, m.start()) + 1; s.parts = split(re.sub(r'#\[[^\]]*\]', '', t[m.end():j-1])); s.at = m.start()
            (self.structs if m.group(1) == 'struct' else self.enums).append(s)
        for m in re.finditer(r'\bconst\s+(\w+)\s*:\s*([^=;]+(?:;[^=]*)?)=', t):
            self.consts.append((m.group(1), m.group(2).strip(), t.count('\n', 0, m.start()) + 1))
    def line(self, i): return self.t.count('\n', 0, i) + 1
def load(root):
    fs = []
    base = os.path.join(root, 'crates')
    for c in sorted(os.listdir(base)):
        d = os.path.join(base, c, 'src')
        for dd, _, names in sorted(os.walk(d)):
            for x in sorted(names):
                if x.endswith('.rt'): fs.append(File(root, os.path.join(dd, x)))
    return fs


ROOT = sys.argv[1] if len(sys.argv) > 1 else '.'
FILES = load(ROOT)
FNS = [f for x in FILES for f in x.fns]
BY = collections.defaultdict(list)
for f in FNS: BY[f.file.crate + '::' + f.name].append(f)
OUT = []                                  # (kind, crate, where, name, what)
def put(kind, file, line, name, what):
    OUT.append((kind, file.crate, '%s:%d' % (file.name, line), file.crate + '::' + name, what))
def putf(kind, f, what): put(kind, f.file, f.line, f.name, what)
def named(name): return BY.get(name, [])
NUM = ('u8', 'u16', 'u32', 'u64', 'usize')
def has(f, name, ty=None):
    return any(a == name and (ty is None or re.fullmatch(ty, b)) for a, b in f.ps)

# ---------- 4 first, since a conversion is counted there and not under 1
def arms(body):
    """The arms of a body that is one match and nothing else, or None."""
    b = re.sub(r'^(\s*let \w+ = [\w.]+;)+', '', body).strip()
    m = re.match(r'match\s+[\w.]+\s*\{', b)
    if not m: return None
    j = close(b, m.end() - 1)
    if b[j:].strip(): return None
    inner = b[m.end():j-1]; r = []; d = 0; a = 0; i = 0
    while i < len(inner):
        c = inner[i]
        if c in '([{': d += 1
        elif c in ')]}':
            d -= 1
            if c == '}' and d == 0 and re.match(r'\s*[A-Za-z_\d(\'"]', inner[i+1:]) : r.append(inner[a:i+1]); a = i + 1
        elif c == ',' and d == 0: r.append(inner[a:i]); a = i + 1
        i += 1
    r.append(inner[a:])
    out = []
    for x in r:
        if '=>' in x:
            p, _, v = x.partition('=>'); out.append((' '.join(p.split()), ' '.join(v.split()).strip()))
    return out
CONV = set()
ENUMS = {e.name for x in FILES for e in x.enums}
STRUCTS = {s.name for x in FILES for s in x.structs}
for f in FNS:
    a = arms(f.body)
    full = f.file.crate + '::' + f.name
    if a and f.ret == 'bool' and all(v in ('true', 'false') for _, v in a):
        kind = '4c' if f.ps and f.ps[0][1] in NUM and f.file.crate == 'codes' else '4a'
        putf(kind, f, 'says by a match whether a value is of a case or in a range' if kind == '4a' else 'a number turned into a flag by a match')
        if kind == '4c': CONV.add(full)
        continue
    if a and len(f.ps) == 1:
        ty = f.ps[0][1]
        pats = [p for p, _ in a]; vals = [v for _, v in a]
        num = all(re.fullmatch(r'[\d_.=| ]+|_', p) for p in pats)
        lit = all(re.fullmatch(r'\d+|\w+\.0|[A-Z_]+|facts::price_number\(Price::None\)|\{.*\.0 \}|\{.*number_of\(\w+\) \}', v) for v in vals)
        words = all(re.fullmatch(r'words::[A-Z_]+', v) for v in vals)
        to_enum = all(re.match(r'([A-Z]\w+)::', v) and re.match(r'([A-Z]\w+)::', v).group(1) in ENUMS for v in vals)
        if num and ty in NUM and to_enum: putf('4c', f, 'a number turned into %s by a match' % f.ret); CONV.add(full)
        elif num and ty in NUM and f.ret in NUM: putf('4c', f, 'a number turned into another by a match')
        elif f.ret in NUM and lit and not num: putf('4c', f, '%s turned into a number by a match' % ty); CONV.add(full)
        elif f.ret == 'u8' and words: putf('4c', f, '%s turned into the number of a phrase by a match' % ty)
        elif ty in ENUMS and to_enum and f.ret in ENUMS and f.ret != ty and f.name != 'filed_because': putf('4c', f, '%s turned into %s by a match' % (ty, f.ret))
        elif ty in ENUMS and f.ret == ty: putf('4f', f, 'the other case of %s by a match' % ty)
        elif f.ret == 'u8' and num and all(re.fullmatch(r'words::[A-Z_]+', v) for v in vals): putf('4c', f, 'a number turned into a phrase')
    if a and f.ret == 'bool' and any(v in ('true', 'false') for _, v in a): putf('4g', f, 'a match with true or false in one case and a test in another')
    if f.name == 'agreement_ok' and 'match' in f.body: putf('4a', f, 'a table of yes and no over two values by nested matches')
    if f.name == 'tried_from' and f.ret in ENUMS and 'return' in f.body: putf('4c', f, 'numbers turned into %s by a row of tests' % f.ret)
    b = ' '.join(f.body.split())
    if re.fullmatch(r'if \w+ \{ 1 \} else \{ 0 \}', b): putf('4c', f, 'a flag turned into a number'); CONV.add(full)
    if len(f.ps) == 1 and re.fullmatch(r'\w+ as u(16|32|64)', b): putf('4c', f, 'a number made wider by a function of its own')
    # a struct made of another's fields, each turned
    if f.ret in STRUCTS and len(re.findall(r'\w+: [\w.:()]+ as u64', b)) >= 3: putf('4c', f, 'the fields of one struct turned, one by one, into those of %s' % f.ret)
    # two values told equal field by field
    if re.search(r'\b\w+\.0 == \w+\.0\b', b): putf('4b', f, 'two prices told equal by hand')
    elif re.search(r'\w\.0 (<|<=|==|>|>=) [\w]|\w (<|<=|>|>=) \w[\w.]*\.0\b', b):
        putf('4b', f, 'compares the number inside a unit')
    # printing
    calls = re.findall(r'text::add_word\(\s*\w+,\s*\w+,\s*b"', f.body)
    if a and has(f, 'out', r'&mut \[u8\]') and (len(calls) >= 2 or (len(calls) == 1 and len(a) == 2)): putf('4d', f, 'the words of a case chosen by a match and written')
    elif 'match' in f.body and has(f, 'out', r'&mut \[u8\]') and len(calls) >= 3: putf('4d', f, 'the words of a case chosen by a match and written')
    elif a and has(f, 'out', r'&mut \[u8\]') and len(f.ps) in (3, 4) and all('add_' in v or v == 'at' for _, v in a) and f.name in ('add_price', 'add_dollars', 'add_amount', 'add_value', 'add_lapse'): putf('4d', f, 'a value written by a match on its case')
    elif has(f, 'out', r'&mut \[u8\]') and re.fullmatch(r'if [^{]*\{ return text::add_word\([^;]*; \} text::add_word\(.*', b): putf('4d', f, 'one of two words chosen and written')
    elif f.name in ('add_decimal', 'decimal_length') or (f.name in ('group_of', 'decimals_of', 'clock_text') and f.ret.startswith('[u8')): putf('4d', f, 'the digits of a number by hand')
    # min, max, saturating, distance
    if re.search(r'\b4294967295 - \w+\.0 < |\bif (\w+)(\.0)? < (\w+)(\.0)? \{ return \w+\(0\); \} ?\w+\(\1(\.0)? - \3', b) or re.search(r'if (\w+)\.0 < (\w+)\.0 \{ return (Mills\()?\2\.0 - \1\.0', b) \
       or re.fullmatch(r'if \w+ < \d+ \{ return [\w( )]+; \} [\w(]*\d+\)?', b) or re.fullmatch(r'if sum < \d+ \{ sum as u32 \} else \{ \d+ \}', b) or re.search(r'if m > 4294967295', b) \
       or re.search(r'if (size)\.0 < contracts\.0 \{ return size; \}', b) or re.search(r'if \w\.0 < \w\.0 \{ b \} else \{ a \}', b):
        putf('4f', f, 'min, max, a distance or a sum that stops, by hand')
    # copies
    k = len(re.findall(r'\blet \w+ = [a-z_]\w*(?:\.[a-z_]\w*)+;', f.body))
    for m in re.finditer(r'\blet (\w+) = ([a-z_]\w*(?:\.[a-z_]\w*)+);', f.body):
        uses = len(re.findall(r'\b%s\b(?!\s*:[^:])' % m.group(1), f.body[m.end():]))
        put('4e' if uses <= 1 else '4h', f.file, f.file.line(f.body_at + m.start()), f.name, 'let %s = %s (used %d times)' % (m.group(1), m.group(2), uses))

# ---------- 1
for x in FILES:
    for e in x.enums:
        if len(e.parts) == 2:
            pay = ['(' in p or '{' in p for p in e.parts]
            if sum(pay) == 1: put('1a', x, e.line, e.name, 'enum %s { %s }' % (e.name, ', '.join(' '.join(p.split()) for p in e.parts)))
            elif sum(pay) == 2: put('1a', x, e.line, e.name, 'enum %s of two cases with a value each' % e.name)
        for p in e.parts:
            m = re.fullmatch(r'(\w+)\((u8|u16)\)', p)
            if m and m.group(1) != 'Letter': put('1c', x, e.line, e.name + '::' + m.group(1), 'a bare %s for a reason' % m.group(2))
    for s in x.structs:
        fld = [(a.strip().replace('pub ', ''), b.strip()) for a, _, b in (p.partition(':') for p in s.parts) if b]
        names = [a for a, _ in fld]
        if len(fld) > 1 and any(a in ('refusal', 'failed', 'whole') for a in names): put('1b', x, s.line, s.name, 'struct { %s }' % ', '.join(names))
        elif 'bytes' in names and ('ruled' in names or 'filled' in names): put('1b', x, s.line, s.name, 'struct { %s }: 1 or 0 beside a length' % ', '.join(names))
        for a, b in fld:
            if b in NUM and a in ('reason', 'outcome', 'origin', 'test', 'phrase', 'ignored', 'obvious', 'opening', 'catastrophic'): put('1c', x, s.line, s.name + '.' + a, 'field %s: %s' % (a, b))
        if s.name == 'Figures':
            for a, b in fld:
                if a in ('tp', 'price') and b == 'u32': put('1d', x, s.line, s.name + '.' + a, 'a field with the number 4294967295 for none')
        if dict(fld).get('last') == '[usize; 16]': put('1d', x, s.line, s.name + '.last', 'places with 0 for none')
        if 'low2' in names: put('1d', x, s.line, s.name + '.low2', 'a second range, 1 to 0 for none')
        if names == ['at', 'width']: put('1d', x, s.line, s.name, 'a place, of width 0 for none')
    for e in x.enums:
        if 'Nothing' in e.parts: put('1d', x, e.line, e.name + '::Nothing', 'a value that is none')
    run = [c for c in x.consts if c[1] in ('u8', 'u16')]
    if len(run) >= 3: put('1c', x, run[0][2], run[0][0] + '..' + run[-1][0], 'a list of %d constants for phrases' % len(run))
CODE = ('number', 'refusal', 'fault', 'reason', 'outcome', 'origin', 'kind', 'test', 'phrase', 'rule', 'cause', 'ignored', 'counts', 'obvious', 'opening', 'catastrophic', 'own', 'size')
for f in FNS:
    full = f.file.crate + '::' + f.name
    if full in CONV or f.file.crate == 'codes': continue
    ps = [a + ': ' + b for a, b in f.ps if b in ('u8', 'u16', 'u64') and (a in CODE or (a == 'n' and b == 'u8'))]
    r = []
    if f.ret == 'u8' and f.name not in ('byte_at', 'two_digits', 'write_into'): r = ['-> u8']
    if f.ret == 'u32' and re.match(r'desk_(check|rule|fill)_case', f.name): r = ['-> u32']
    if f.ret == 'u16' and f.file.crate == 'forms': r = ['-> u16']
    if ps or r: putf('1c', f, ', '.join(ps + r))
SENT = {'cut::case_length': '0 where there is no case', 'cut::length_at': '0 where there is no case', 'earlier::quotes_before': '0 where the quotes are refused', 'desk::desk_quotes_before': '0 where the quotes are refused', 'desk_c::desk_quotes_before': '0 where the quotes are refused', 'edges::find': 'the end where there is none', 'edges_kinds::find': 'the end where there is none', 'report::ruled_one': '1 or 0 for a yes or no'}
for n, w in SENT.items():
    for f in named(n):
        if f.ret in ('usize', 'u64'): putf('1d', f, w)
for f in FNS:
    full = f.file.crate + '::' + f.name
    if f.name == 'two_digits' and f.ret == 'u8': putf('1d', f, '100 where there are no two digits')
    if f.name == 'write_into' and f.ret == 'u8': putf('1d', f, '255 where there is no room')
    if has(f, 'last', r'\[usize; 16\]') or (f.file.crate == 'best' and has(f, 'place', 'usize')): putf('1d', f, 'places with 0 for none')
    if f.file.crate == 'lines' and has(f, 'p', 'u32'): putf('1d', f, 'a price as a number, 4294967295 for none')
    if f.name == 'spell' and has(f, 'tp', 'u32'): putf('1d', f, 'prices as numbers, 4294967295 for none')

for f in FNS:
    for m in re.finditer(r'\bif (\w+|\w+\.refusal|\w+::(?:check_\w+|head_fault|fill_sheet)\([^;{]*\)) (==|!=) 0 \{', f.body):
        g = m.group(1)
        if re.fullmatch(r'width|place|more|price|obvious|opening|catastrophic|[ki]', g) or (g == 'n' and f.ret not in ('u8', 'Entry', 'Reading') and not f.name.startswith(('ruled', 'say_case'))): continue
        put('1e', f.file, f.file.line(f.body_at + m.start()), f.name, 'a refusal handed on or told by hand: if %s %s 0' % (' '.join(g.split()), m.group(2)))

for f in FNS:
    if f.ret == 'bool' and re.search(r'\b(Write|Read)\b', f.generics): putf('1f', f, 'a bool that says whether a read or a write succeeded')
    if f.ret == 'usize' and re.search(r'\bRead\b', f.generics): putf('1f', f, 'a length that does not say whether a read failed')
for f in FNS:
    for m in re.finditer(r'\bif !?(\w+)\.(whole|failed) \{', f.body): put('1e', f.file, f.file.line(f.body_at + m.start()), f.name, 'a flag asked by hand: ' + ' '.join(m.group(0).split())[:-2])

# ---------- 2
KW = set('let if else match return while loop for in as mut true false fn break'.split())
def skel(f):
    text = ', '.join(a + ': ' + b for a, b in f.ps) + ' -> ' + f.ret + ' { ' + f.body + ' }'
    ids = {}; out = []
    for t in re.findall(r'b?"[^"]*"|b\'[^\']*\'|[A-Za-z_]\w*|\d\w*|[^\sA-Za-z_\d]', text):
        if re.match(r'b?"|b\'|\d', t): out.append('L')
        elif re.match(r'[A-Za-z_]', t):
            if t in KW: out.append(t)
            elif t in NUM + ('bool', 'str') or t[0].isupper(): out.append('T')
            else: out.append('v%d' % ids.setdefault(t, len(ids)))
        else: out.append(t)
    return ' '.join(out)
# alike by chance: the text is alike, the meaning is not
CHANCE = [{'counter::desk_explain_case', 'desk::desk_print_sheet'}, {'desk::desk_rule_case', 'desk::desk_fill_case'}, {'counter_c::desk_explain_case', 'desk_c::desk_print_sheet'},
          {'desk_c::desk_rule_case', 'desk_c::desk_rule_sheet', 'desk_c::desk_fill_case'}, {'cut::said_length', 'desk::desk_quotes_before'}, {'step_lines::executed_phrase', 'step_lines::minimum_phrase'},
          {'careful::turned_at', 'faults::code_at', 'wire::read_u32'}]
GROUPS = [
 ('wire: join', 'wire::join_two wire::join_four careful::high_first'),
 ('wire: read', 'wire::read_u16 wire::read_u32 careful::turned_at'),
 ('wire: put', 'wire::put_u16 wire::put_u32'),
 ('one of two by the side', 'parties::kind_in_error parties::other_kind act::limit_on step_lines::place_on step_lines::phrase_on steps::price_on steps::mills_on steps::party_on'),
 ('one of two by a test', 'refusals::unless steps::unless step_lines::either'),
 ('a number in a range', 'refusals::zero_or_one refusals::zero_to_two refusals::one_or_two refusals::one_to_three notices::shows'),
 ('is of this case', 'parties::is_customer parties::is_maker way::is_trade_date way::is_next_day agreement::is_opening steps::is_on_price steps::is_made'),
 ('from a coded byte', 'codes::side_of codes::kind_of codes::day_of codes::agreement_of codes::flag_of'),
 ('to a coded byte', 'codes::side_number codes::kind_number codes::day_number codes::agreement_number codes::flag_number'),
 ('from a number or none', 'facts::price_of facts::moment_of'), ('to a number or none', 'facts::price_number facts::moment_number'),
 ('in range or none', 'prices::price_ok prices::differential_ok faults::moment_ok'), ('mills in range', 'prices::mills_ok careful::is_price'),
 ('at most', 'halves::capped steps::capped blame::capped'), ('how far apart', 'careful::distance steps::apart'), ('less, at least 0', 'steps::since ruling::rest_of'),
 ('are the quotes wide', 'width::is_wide steps::find_spread'), ('a quote in order', 'prices::quote_ok quotes::side_ok'),
 ('a code in order', 'faults::code_ok faults::code_at'), ('both codes in order', 'faults::codes_ok faults::codes_at'),
 ('a party of the record', 'record::buyer_of record::seller_of'), ('a kind of the record', 'record::buyer_kind record::seller_kind'),
 ('a refusal beside nothing', 'cases::refuse sheet::refuse best::refuse'), ('owner and refusal', 'fill_report::put_refused standing::put_refused'),
 ('a count with commas', 'words::add_one_group words::add_two_groups words::add_count'), ('mark and three digits', 'words::group_of spelling::decimals_of'),
 ('the value or its none, written', 'text::add_price spelling::add_dollars words::add_lapse'),
 ('words of a case', 'words::add_kind words::add_day words::add_agreement words::add_flag'),
 ('half or quote of a side', 'halves::half_of theory::quote_for'),
 ('row of one time', 'step_lines::soon_row step_lines::late_row step_lines::next_late_row'), ('row of one flag', 'step_lines::trade_row step_lines::panel_row'),
 ('place by the side', 'step_lines::kind_place step_lines::limit_place step_lines::quote_place step_lines::size_place'),
 ('table of the ways tried', 'step_lines::way_phrase step_lines::way_rule'),
 ('a field of so many bytes', 'blame::byte_at blame::two_at blame::four_at'),
 ('a four-byte field of a test', 'blame::keep_zero blame::keep_money blame::keep_count blame::keep_clock blame::keep_lapse'),
 ('a field that goes by another', 'blame::limit_at blame::terms_at'), ('a one-byte field of a test', 'blame::keep_coded blame::keep_letter'),
 ('bounds', 'blame::within blame::or_none'), ('bounds by the agreement', 'blame::agreed_bounds blame::made_bounds'),
 ('a form in numbers', 'forms::length_of forms::kind_of'),
 ('a good record', 'specimen::good specimen::good_two'),
 ('a wider number', 'blame::wide edges_answered::wide edges_kinds::wide edges_ruled::wide'),
 ('the input has ended', 'explainer::ended filler::ended finder::ended warner::ended'), ('write all', 'streams::write_all printer::write_line'), ('read all', 'streams::read_full printer::read_sheet'),
 ('write the pieces', 'explainer::tell warner::warn printer::write_report'),
 ('edges: say', 'edges::say edges_answered::say edges_kinds::say edges_ruled::say'), ('edges: say_number', 'edges::say_number edges_answered::say_number edges_kinds::say_number edges_ruled::say_number'),
 ('edges: say_untouched', 'edges::say_untouched edges_answered::say_untouched edges_kinds::say_untouched'),
 ('edges: say_u32', 'edges_kinds::say_u32 edges_ruled::say_u32'),
 ('edges: into', 'edges_answered::into_95 edges_answered::into_96 edges_kinds::into_95 edges_kinds::into_96'),
 ('edges: large sheets', 'edges_answered::large_sheets edges_answered::large_sheets_two'), ('edges: say_large', 'edges_answered::say_large edges_answered::say_large_two'),
]
for n in ('desk_check_case', 'desk_rule_case', 'desk_rule_sheet', 'desk_print_sheet', 'desk_quotes_before', 'desk_best_quotes', 'desk_fill_case'): GROUPS.append(('C form: ' + n, 'desk::%s desk_c::%s' % (n, n)))
GROUPS.append(('C form: desk_explain_case', 'counter::desk_explain_case counter_c::desk_explain_case'))
up = {}
def root(a):
    while up.get(a, a) != a: a = up[a]
    return a
def join(a, b): up.setdefault(a, a); up.setdefault(b, b); up[root(b)] = root(a)
names = {}
for g, l in GROUPS:
    l = [n for n in l.split() if n in BY]
    for n in l[1:]: join(l[0], n)
    for n in l: names[n] = g
auto = collections.defaultdict(list)
for f in FNS: auto[skel(f)].append(f)
for s, l in auto.items():
    l = sorted({f.file.crate + '::' + f.name for f in l})
    if len(l) > 1 and len(s.split()) >= 11 and set(l) not in CHANCE and not all(n.endswith('::main') for n in l):
        for n in l[1:]: join(l[0], n)
comp = collections.defaultdict(list)
for n in list(up): comp[root(n)].append(n)
for r, l in sorted(comp.items()):
    l = sorted(l, key=lambda n: (BY[n][0].file.name, BY[n][0].line))
    g = next((names[n] for n in l if n in names), l[0].split('::')[1])
    for n in l[1:]: putf('2a', BY[n][0], 'twin of %s (%s: %d of them)' % (l[0], g, len(l)))
TYPES = [('a sheet in numbers', 'sheet::SheetAnswer desk::DeskSheet'), ('units', 'facts::Mills facts::Contracts facts::Seconds'), ('a value or none', 'facts::Price facts::Moment'), ('why ways were shut', 'steps::Shut steps::AllShut'),
         ('bytes and a count', 'sheet::Entry report::Printed'), ('places and a count', 'best::Walk best::Back'), ('records', 'specimen::Record specimen::RecordTwo')]
for g, l in TYPES:
    found = []
    for n in l.split():
        c, t = n.split('::')
        for x in FILES:
            if x.crate == c:
                m = re.search(r'\b(struct|enum|type)\s+%s\b' % t, x.t)
                if m: found.append((n, x, x.line(m.start())))
    for n, x, ln in found[1:]: put('2b', x, ln, n.split('::')[1], 'type, twin of %s (%s)' % (found[0][0], g))
nones = [(x, c) for x in FILES for c in x.consts if c[0] == 'NONE' and c[1] == 'u32']
for x, c in nones[1:]: put('2b', x, c[2], 'NONE', 'constant, twin of %s::NONE' % nones[0][0].crate)

# ---------- 3
for f in FNS:
    for m in re.finditer(r'\b(while|loop)\b([^{;]*)\{', f.body):
        j = close(f.body, m.end() - 1); b = f.body[m.end():j-1]
        cond = ' '.join(m.group(2).split())
        step = re.findall(r'\b(\w+) ([+-])= 1;', b)
        other = [v for v, _ in re.findall(r'\b(from|at|done|step|low|high|place|rest|n|ruled|filled|read) (\+=|=) (?!1;)', b)]
        kind = '3a' if step and (m.group(1) == 'loop' or any(re.search(r'\b%s\b' % v, cond) for v, _ in step)) and not re.search(r'\b(step|from|at) (\+=|=) (?!1;)', b) else ('3b' if step else '3c')
        put(kind, f.file, f.file.line(f.body_at + m.start()), f.name, '%s %s: %s' % (m.group(1), cond, {'3a': 'counts an index by 1', '3b': 'counts an index beside a place whose step is read from the data', '3c': 'its step is read from the data'}[kind]))
    for m in re.finditer(r'\bfor (\w+) in (\w+)\.\.(\w+)', f.body): put('3d', f.file, f.file.line(f.body_at + m.start()), f.name, 'for over places: %s in %s..%s' % m.groups())

# ---------- 5
def conj(c):
    out = []
    for p in (split(c, '×') if '×' in c else [c]):
        p = p.strip()
        while p.startswith('(') and close(p, 0) == len(p): p = p[1:-1].strip()
        out.append(p)
    return out
def shape(p, f):
    q = p
    for a, b in f.ps: q = re.sub(r'\b%s\.(now|old|new)\b' % re.escape(a), r'_.\1', q)
    q = re.sub(r'^(at|from|place) \+ (\d+|length _\.now) ≤ length _\.', r'at + N ≤ length _.', q)
    q = re.sub(r'^(at|kind_at) < length _\.now', 'at < length _.now', q)
    if not re.match(r'^(88|n \*)', q): q = re.sub(r'^\d+ ≤ length _\.old$', 'N ≤ length _.old', q)
    q = re.sub(r'^result ≤ at \+ \d+$', 'result ≤ at + N', q)
    q = re.sub(r'^result(\.bytes)? ≤ \d+$', 'result ≤ N', q)
    q = re.sub(r'^result ≡ at \+ length .*$', 'result ≡ at + length ..', q)
    q = re.sub(r'^_\.new ≡ laid_at at .* _\.old$', '_.new ≡ laid_at at .. _.old', q)
    q = re.sub(r'^_\.new ≡ laid .* _\.old$', '_.new ≡ laid .. _.old', q)
    q = re.sub(r'^_\.new ≡ stored _\.old .*$', '_.new ≡ stored _.old ..', q)
    if not q.startswith('result ≡ length (take'): q = re.sub(r'^result(\.bytes)? ≡ length .*$', 'result ≡ length ..', q)
    q = re.sub(r'^(n|place) ≤ length _\.now / 28$', 'n ≤ length _.now / 28', q)
    return q
ENS = ('result ≤ at + N', 'result ≤ N', 'result ≡ at + length ..', '_.new ≡ laid_at at .. _.old', '_.new ≡ laid .. _.old', '_.new ≡ stored _.old ..', 'result ≡ length ..', 'result ≤ length _.new', 'result ≡ length (take result _.new)', 'IsTrue result → IsAtEnd (R.remaining _.old)')
facts = collections.defaultdict(list)
for f in FNS:
    seen = []
    for c in f.req:
        for p in conj(c):
            q = 'requires ' + shape(p, f)
            if q not in seen: seen.append(q)
    for c in f.ens:
        for p in conj(c):
            q = shape(p, f)
            if q in ENS and 'ensures ' + q not in seen: seen.append('ensures ' + q)
    for q in seen: facts[q].append(f)
for q, l in sorted(facts.items()):
    if len(l) >= 3:
        for f in l: putf('5a', f, q + ' (%d functions)' % len(l))
TRAVEL = [('out, at', [('out', r'&mut \[u8\]'), ('at', 'usize')]), ('buyer, seller', [('buyer', None), ('seller', None)]), ('quotes, time', [('quotes', r'&\[u8\]'), ('trade_time|time', 'u32')]),
          ('side, tp', [('side', 'Side'), ('tp', 'Mills')]), ('way, source', [('way', 'Way'), ('source', 'Source')]), ('sheet, n or k', [('sheet', r'&\[u8\]'), ('n|k', 'usize')]),
          ('row, from, to', [('row', r'&\[u8\]'), ('from', 'usize'), ('to', 'usize')]), ('s, name, at', [('s', r'&\[u8\]'), ('name', 'FieldName'), ('at', 'u8')]), ('s, later', [('s', r'&\[u8\]'), ('later', 'Blame')]),
          ('case, index, out', [('case', r'&\[u8\]'), ('index', 'u32'), ('out', r'&mut \[u8\]')]), ('executed, filed', [('executed', 'Seconds'), ('filed', 'Seconds')]),
          ('quotes, half', [('quotes', r'&\[u8\]'), ('half', 'Half')]), ('said, name', [('said', r'&mut Vec<u8>'), ('name', r'&\[u8\]')]), ('out, figures', [('out', r'&mut \[u8\]'), ('n', 'Figures')]),
          ('quotes, sheet or case', [('quotes', r'&\[u8\]'), ('sheet|case', r'&(mut )?\[u8\]')]), ('low, high', [('low', 'u32'), ('high', 'u32')]), ('side, looked', [('side', 'Side'), ('looked', 'Looked')]), ('s, at', [('s', r'&\[u8\]'), ('at', 'u8|usize')]), ('way, customer', [('way', 'Way'), ('customer', 'bool')]), ('f, way', [('f', 'Facts'), ('way', 'Way')]), ('clock, tried', [('clock', 'Clock'), ('tried', 'Tried')])]
for g, want in TRAVEL:
    l = [f for f in FNS if all(any(re.fullmatch(n, a) and (t is None or re.fullmatch(t, b)) for a, b in f.ps) for n, t in want)]
    if g == 'out, at': l = [f for f in l if ('at', 'usize') in f.ps and f.ps.index(('at', 'usize')) == f.ps.index(('out', '&mut [u8]')) + 1]
    if len(l) >= 3:
        for f in l: putf('5b', f, 'parameters that travel together: %s (%d functions)' % (g, len(l)))

# ---------- 6
for f in FNS:
    if f.ret == 'usize' and has(f, 'out', r'&mut \[u8\]') and has(f, 'at', 'usize'): putf('6a', f, 'a buffer and a place in it; answers the next place')
    elif f.ret in ('usize', 'u64') and has(f, 'out', r'&mut \[u8(; \d+)?\]'): putf('6b', f, 'a buffer; answers how much of it is used')
    if f.ret == '[Piece; 10]': putf('6d', f, 'a row of ten, filled up with nothing')
    if has(f, 'last', r'\[usize; 16\]') or (f.file.crate == 'best' and has(f, 'place', 'usize')): putf('6e', f, 'places of records kept in an array')
    if f.file.name.endswith('main.rt') or f.file.crate in ('explanation', 'words'):
        for m in re.finditer(r'\blet mut (\w+) = \[0u8; \w+\];', f.body):
            if re.search(r'\b%s\[\.\.\w+\]' % m.group(1), f.body): put('6c', f.file, f.file.line(f.body_at + m.start()), f.name, 'a buffer %s with its length in a local beside it' % m.group(1))
for x in FILES:
    for s in x.structs:
        nm = [p.partition(':')[0].strip().replace('pub ', '') for p in s.parts]
        if 'bytes' in nm or 'written' in nm: put('6c', x, s.line, s.name, 'the length of a buffer that stands elsewhere')
        if any(p.strip().endswith('[usize; 16]') for p in s.parts): put('6e', x, s.line, s.name, 'places of records kept in an array')
    for c in x.consts:
        if c[1].startswith('[usize;'): put('6e', x, c[2], c[0], 'a table of starts beside the bytes that they cut')
for n in ('earlier::count_before', 'bands::band_of', 'steps::floor_of'):
    for f in named(n):
        b = ' '.join(f.body.split())
        if 'while' in b: putf('6e', f, 'a sorted list searched by halves, by hand')
        elif b.count('if ') >= 4: putf('6e', f, 'a sorted table searched by a row of tests')

# ---------- 7
for f in FNS:
    for m in re.finditer(r'\bmatch\s+(\w+)\s*\{', f.body):
        j = close(f.body, m.end() - 1); inner = f.body[m.end():j-1]
        ty = dict(f.ps).get(m.group(1), '')
        if re.search(r'(^|,|\})\s*\d+ => ', inner) and re.search(r'=> (return )?\w+(::\w+)?\(', inner) and f.file.crate not in ('codes', 'facts'):
            putf('7a', f, 'match on a number, a call for each'); break
    if has(f, 'k', 'usize') and f.file.crate not in ('quotes', 'cut'): putf('7b', f, 'a number says which piece')
    if re.search(r'\blet mut k: usize = 0;', f.body): putf('7b', f, 'counts through the pieces by their numbers')
    nums = re.findall(r'return (\d+);', f.body)
    nums += re.findall(r'return refuse\((\d+)\)', f.body)
    un = re.findall(r'unless\([^;]*, (\d+)\)', f.body)
    if f.name != 'unless' and f.file.crate not in ('spelling', 'edges_kinds') and (nums or un) and (f.ret == 'u8' or 'refuse(' in f.body): putf('7c', f, 'a row of tests, each with its number (%s)' % ', '.join(nums + ['unless'] * bool(un)))
    if f.file.crate == 'blame': continue        # tables of bounds, no steps
    for m in re.finditer(r'\bmatch (way|acting|heeded|reached|end|act|tried|origin|found|agreement)\s*\{', f.body if f.name != 'open_of' else ''):
        j = close(f.body, m.end() - 1); inner = f.body[m.end():j-1]
        if not any(o[0] in ('4c', '4d') and o[3] == f.file.crate + '::' + f.name for o in OUT) and len(re.findall(r'=>\s*\{?\s*(?:[A-Z]\w+::\w+\()?(?!text::)[a-z]\w*(::\w+)*\(', inner)) >= 2: putf('7d', f, 'match on an enum, a call for each')

# ---------- 8
base = os.path.join(ROOT, 'crates')
for c in sorted(os.listdir(base)):
    d = os.path.join(base, c, 'proofs')
    for dd, _, nn in sorted(os.walk(d)):
        for x in sorted(nn):
            if not x.endswith('.antt'): continue
            p = os.path.relpath(os.path.join(dd, x), base)
            kind = {'Answers.antt': '8a', 'Invariants.antt': '8b'}.get(x, '8c') if dd != d else '8c'
            if dd == d and x in ('Answers.antt', 'Invariants.antt'): kind = '8c'
            OUT.append((kind, c, p + ':1', c, {'8a': 'answers', '8b': 'invariants', '8c': 'lemmas'}[kind]))

WHAT = {'1a': 'enum of the shape of Option', '1b': 'flag or number beside a value', '1c': 'bare number for a kind, reason or refusal', '1d': 'bare number that stands for none', '1e': 'refusal handed on by hand', '1f': 'bool or length for the success of a read or write',
        '2a': 'twin functions', '2b': 'twin types and constants', '3a': 'loop that counts an index', '3b': 'index beside a place', '3c': 'loop with the step of its data', '3d': 'for over places',
        '4a': 'is it of this case', '4b': 'compares inside a unit', '4c': 'conversion', '4d': 'printing', '4e': 'field copied into a local used once', '4h': 'the same, used more often', '4g': 'match with true or false in one case', '4f': 'min, max, other side',
        '5a': 'fact in three contracts or more', '5b': 'parameters that travel together', '6a': 'buffer, place -> place', '6b': 'buffer -> length', '6c': 'length beside a buffer', '6d': 'row of ten', '6e': 'search, starts, places',
        '7a': 'match on a number', '7b': 'number of a piece', '7c': 'numbered row of tests', '7d': 'match on an enum with calls', '8a': 'Answers.antt', '8b': 'Invariants.antt', '8c': 'lemma files'}
if __name__ == '__main__':
    short = len(sys.argv) > 2
    OUT.sort(key=lambda o: (o[0], o[2].split(':')[0], int(o[2].split(':')[1])))
    for k, c, w, n, t in OUT: print('%s\t%s\t%s' % (k, w, n if short else n + ': ' + t))
    kinds = sorted(WHAT); crates = sorted({o[1] for o in OUT})
    cnt = collections.Counter((o[1], o[0]) for o in OUT)
    print('\nCOUNTS')
    for p in '12345678':
        print('%s\t%d' % (p, sum(v for (c, k), v in cnt.items() if k[0] == p)))
        for k in kinds:
            if k[0] == p: print('  %s\t%d\t%s' % (k, sum(v for (c, kk), v in cnt.items() if kk == k), WHAT[k]))
    print('\ncrate\t' + '\t'.join('12345678'))
    for c in crates: print(c + '\t' + '\t'.join(str(sum(v for (cc, k), v in cnt.items() if cc == c and k[0] == p)) for p in '12345678'))
