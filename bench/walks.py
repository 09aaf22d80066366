#!/usr/bin/env python3
"""Writes the walks (proofs/EXPORT/Proof.antt, or proofs/MODULE/EXPORT/Proof.antt) of a static library's exports, as src/ declares them.

    walks.py [EXPORT ..]        from anywhere; with names, only these exports' walks
    walks.py --held             writes none, and ends with status 1 unless the walks are those that it writes, as rt fmt leaves them

An export takes an opaque handle, `at: *mut H`, and its body is a call of one method of the type R that lies there:

    pub unsafe extern "C" fn linkd_define(alloc: Global, at: *mut Linkd, loader: u32, bytes: &[u8], told: &mut Told) -> u32
        ghost old: { Option Opened }
        requires* { sem 𝓛 (linker_at at old) }
        ensures* { sem 𝓛 (linker_left at (λ new. IsDefine loader bytes.now old result told.new new)) }
    {
        (*(at as *mut Linker)).define(alloc, loader, bytes, told)
    }

`linker_at p x` says that R with the value x lies at p, and `linker_left p P` that it lies there with a value of which P holds
(specs/Handle.antt). The method takes `&mut self` and the other parameters in their order. It has no `requires`, and one plain clause, the
same relation of its old and its new value:

        ensures { IsDefine loader bytes.now self.old result told.new self.new }

R and the structs that cross stand in a library below, and MODULES says in which of its modules. `alloc` stands first, where there is
one, and then the handles. Of two or three handles, the method is the first one's, and takes the others as `&mut`s; `old` and `new` are
tuples then. The other parameters are numbers, slices, and `&mut`s of numbers, of #[repr(C)] structs and of slices, of numbers or of such structs.
The result is a u32 or a u64, or there is none. An export may also write a new value into room, of which the method says `result ≡ VALUE`:

    pub unsafe extern "C" fn linkd_blank(at: *mut Linkd)
        requires* { sem 𝓛 (linker_room at) }
        ensures* { sem 𝓛 (linker_at at None) }
    {
        (at as *mut Linker).write(Linker::blank());
    }

A walk lends what lies at the handle to the method for the time of the call, and takes it back as the method left it. The other parameters
are passed on in one piece, whatever they are. The lemmas for it are in proofs/Lent.antt, and proofs/Steps.antt has all that walks cite.
"""

import re
import shutil
import subprocess
import sys
import tempfile
from dataclasses import dataclass
from pathlib import Path

# ---- what is particular to this repository
CRATE = Path(__file__).resolve().parent.parent / 'crates/linkd_c'
LIBRARY = 'jl_host'
MODULES = {
    'Linker': 'linker', 'Seat': 'seat', 'Memo': 'memo', 'View': 'view', 'Renewal': 'renewal',
    'Told': 'told', 'CallAnswer': 'shown', 'LinkShown': 'shown', 'ResolutionShown': 'shown', 'LinkRow': 'reading', 'TargetPart': 'targets',
    'Invocation': 'invocations', 'Counts': 'renew',
}
# ----

BITS = {'u8': 8, 'u16': 16, 'u32': 32, 'u64': 64, 'usize': 64}


@dataclass(frozen=True)
class Handle:
    """A handle of an export: the type that lies there, and the formula that says so, or that there is room."""

    type: str
    at: str

    @property
    def path(self):
        return f'{MODULES[self.type]}.{self.type}'


@dataclass(frozen=True)
class Export:
    """An export as it is declared: what it says, in its own words, is `relation`, of an `old` and a `new` of the type `value`."""

    module: str  # of the crate, or none where it is the root
    name: str
    params: list
    handles: list
    method: str
    relation: str
    value: str = ''
    result: str = 'u32'

    @property
    def is_blank(self):
        return not self.value

    @property
    def path(self):
        return [self.module, self.name] if self.module else [self.name]


@dataclass(frozen=True)
class Param:
    """A parameter: its place among the export's, from 0, and the lifetime that it brings, if any."""

    kind: str  # heap, handle, num, slice, out or outs
    name: str
    row: str
    place: int
    lifetime: int

    def of(self, what):
        return what + '.1' * self.place + '.0'

    @property
    def spelled(self):
        """How the machine's values follow from the parameter's value."""
        return {
            'heap': 'λ _. heap_val ∷ []',
            'handle': 'rawptr_vals',
            'num': f'uint_vals w{BITS.get(self.row)}',
            'slice': 'shr_slice_vals',
            'out': 'mut_vals',
            'outs': 'mut_slice_vals',
        }[self.kind]

    @property
    def tells(self):
        life = f'(named {self.lifetime}) {"κs" + ".1" * self.lifetime}.0 {self.row}'
        return {
            'heap': 'heap_Tells',
            'handle': 'rawptr_Tells',
            'num': f'uint_Tells w{BITS.get(self.row)}',
            'slice': f'shr_slice_Tells {life}',
            'out': f'mut_Tells {life}',
            'outs': f'mut_slice_Tells {life}',
        }[self.kind]

    @property
    def typed(self):
        """That the machine's value is of its type."""
        count = f'(tt, (tt, (record {{ fits = {self.of("are")}.0.1.0 }}, tt)))'
        return {
            'heap': '(tt, ((tt, tt), tt))',
            'handle': '(tt, tt)',
            'num': f'(tt, record {{ fits = {self.of("are")}.1 }})',
            'slice': count,
            'out': '(tt, tt)',
            'outs': count,
        }[self.kind]

    @property
    def passed(self):
        """The statements that pass the parameter on, beside the operand: a `&mut` is borrowed again."""
        again = 'sets ! (addr ! (through ! refl (stop !))) refl (tt, tt) $'
        local = self.place + 1
        return {
            'out': [again],
            'outs': [
                f'sets ! (addr ! (from ! (fld ! refl (hop ! (look_in_at ! {local} (sub ! 0 refl (whole !))) (stop !))))) refl (tt, tt) $',
                'sets ! (agg ! (and_then ! (get ! refl) (and_then ! (get_in ! (fld ! refl (stop !)) (sub ! 1 refl (whole !))) (no_more !))))'
                f' refl {self.typed} $',
            ],
        }.get(self.kind, [])


def read_params(text):
    """The parameters, as they are declared."""
    params, lifetime = [], 0
    for place, (name, kind) in enumerate(re.findall(r'(\w+): ([^,]+?)(?:,|\s*$)', text)):
        row = kind.removeprefix('&').removeprefix('mut ').strip('[]')
        if kind == 'Global':
            kind = 'heap'
        elif kind.startswith('*mut '):
            kind = 'handle'
        elif kind.startswith('&mut ['):
            kind = 'outs'
        elif kind.startswith('&mut '):
            kind = 'out'
        elif kind.startswith('&['):
            kind = 'slice'
        elif kind in BITS:
            kind = 'num'
        else:
            sys.exit(f'no walk is known for {name}: {kind}')
        params.append(Param(kind, name, row, place, lifetime))
        lifetime += kind in ('slice', 'out', 'outs')
    return params


def read_exports(module, source):
    """The exports of a module that take a handle."""
    exports = []
    declared = r'pub unsafe extern "C" fn (\w+)\(([^)]*)\)(?: -> (\w+))?\n(.*?)\n\{\n(.*?)\n\}'
    for name, params, result, clauses, body in re.findall(declared, source, re.S):
        clauses = ' '.join(clauses.split())
        asked = re.findall(r'requires\*(?: \w+)? \{ sem 𝓛 \((\w+) ', clauses)
        types = re.findall(r'as \*mut (\w+)', body)
        handles = [Handle(t, at) for t, at in zip(types, asked, strict=True)]
        params = read_params(params)
        if m := re.search(r'\.write\(\w+::(\w+)\(\)\)', body):
            value = re.search(r'ensures\* \{ sem 𝓛 \(\w+ at (.*)\) \}', clauses)
            exports.append(Export(module, name, params, handles, m.group(1), value.group(1), result='unit'))
            continue
        method = re.search(r'\(\*\(at as \*mut \w+\)\)\s*\.(\w+)\(', body).group(1)
        value = re.search(r'ghost old: \{ (.*?) \}', clauses).group(1)
        relation = re.search(r'λ new\. (.*?)\)\) \}$', clauses).group(1)
        exports.append(Export(module, name, params, handles, method, relation, value, result or 'unit'))
    return exports


# what every walk binds, and begins with
HEAD = [
    'let c = f.clauses 𝓛 𝓜.mem 𝓡.returns in let S = f.signature in let stayed = all_give S.params f.ended.kept in let W = walk_of 𝓛 f.ended stayed c in',
    'let 𝓣 = tables 𝓤 𝓛.H 𝓜 𝓡 𝓡.env in let G = triple_of 𝓛 g.signature (g.spec 𝓛 𝓜.mem 𝓡.returns) in',
]
PROVED = 'proved 𝓛 f.ended stayed c 𝓜 𝓡 (all_go 𝓛 S.params f.ended.kept) f.Key.name code.function (code.unfolded 𝓤 𝓛.H 𝓜 𝓡 wired)'
ANSWERS = 'answers ! tt g.signature (g.spec 𝓛 𝓜.mem 𝓡.returns) z v'


def called(export):
    """The name of the proof that the method's contract is met."""
    return f'code.calls-{LIBRARY}::{export.handles[0].path.replace(".", "::")}::{export.method}'


def nested(items, last='tt'):
    for item in reversed(list(items)):
        last = f'({item}, {last})'
    return last


def list_of(items):
    return '(' + ' ∷ '.join([str(i) for i in items] + ['[]']) + ')'


class Context:
    """The names of what a walk's context holds, the head first. Each method gives the steps that it stands for."""

    def __init__(self, *names):
        self.names = list(names)

    def front(self, *names):
        """These come to the head, in this order."""
        if self.names[:len(names)] == list(names):
            return ''
        where = [self.names.index(n) for n in names]
        self.names = list(names) + [n for n in self.names if n not in names]
        return f'move ! {list_of(where)} $ '

    def turn(self, old, step, *made):
        """By the step, these become those."""
        line = self.front(*old) + step
        self.names[:len(old)] = made
        return line

    def split(self, whole, *parts, step='split'):
        return self.turn([whole], f'{step} ! $ ', *parts)

    def join(self, left, right, whole, step='join'):
        return self.turn([left, right], f'{step} ! $ ', whole)

    def at(self, *names):
        return list_of(self.names.index(n) for n in names)


@dataclass(frozen=True)
class Lent:
    """A handle in its walk: `mark` ends its names there, and `pointer` and `old` are what the walk is given of it."""

    handle: Handle
    order: int
    pointer: str
    old: str
    last: str

    @property
    def mark(self):
        return "'" * self.order

    @property
    def spot(self):
        return f'b{self.mark} o{self.mark}'

    @property
    def block(self):
        return f'(block_ptr {self.spot})'

    @property
    def loan(self):
        m = self.mark
        return f'record {{ ref_ptr = (b{m}, o{m}); ghost_name = δ{m}; now = {self.old} }}'


class Walk:
    """The walk of an export that lends what lies at its handles."""

    def __init__(self, export):
        self.export = export
        self.heap = export.params[0].kind == 'heap'
        self.first = 1 if self.heap else 0  # the first handle's place among the parameters
        self.after = '.1' * (self.first + len(export.handles))  # from all parameters to those behind the handles
        self.many = len(export.handles) > 1
        self.lent = [self.lent_of(i, handle) for i, handle in enumerate(export.handles)]
        self.pointers = ' '.join(h.pointer for h in self.lent)
        self.last = f'({", ".join(h.last for h in self.lent)})' if self.many else 'ws.0'
        self.context = Context('owned', 'asked')
        self.lines = []

    def lent_of(self, i, handle):
        """The method takes the first handle's value before the heap, and the others' after it."""
        place = self.first + i
        return Lent(handle, i, f'a{".1" * place}.0', f'x.{i}' if self.many else 'x', f'ws{".1" * place if i else ""}.0')

    def say(self, line):
        self.lines.append('    ' + line.rstrip())

    def text(self):
        self.begins()
        self.enters()
        self.lends()
        self.calls()
        self.hears()
        self.takes_back()
        self.ends()
        return '\n'.join(self.lines)

    def begins(self):
        params = self.export.params
        names = ['p' + h.mark for h in self.lent]
        args = nested(['a.0'] * self.heap + names, 'a' + self.after)
        for line in HEAD:
            self.say(line)
        self.say(f'let sp : (κs : Lfts S.lifetimes) → Spells (types_at S.params κs) = λ κs. {nested(p.spelled for p in params)} in')
        self.say(PROVED)
        self.say(f'sp (λ κs. {nested(p.tells for p in params)}) (λ κs qs bounds a x are.')
        self.say(
            f'let y : {"Ptr → " * len(names)}W.Ghost = λ {" ".join(names)}. let args : Args S κs = {args} in'
            ' ((κs, qs, bounds, args, valss (types_at S.params κs) (sp κs) args), x) in'
        )

    def enters(self):
        """The parameters but for the handles are one entry, or two where there is a heap, and no handle is null."""
        c = self.context
        lies = ' ⊛ '.join(f'‵ ({h.handle.at} {h.pointer} {h.old})' for h in self.lent)
        lies = f'({lies})' if self.many else lies
        self.say(f'qed 𝓛 ((raw (alive 𝓛 S κs qs) ⊛ ‵ (owns (types_at S.params κs) a (y {self.pointers}).0.4)) ∷ {lies} ∷ []) ∵')
        line = c.split('owned', 'tokens', 'rest') + c.front('rest')
        if self.heap:
            line += c.split('rest', 'heap', 'rest', step='fsplit') + c.front('rest')
        line += 'fsplit ! $ drop ! $ ' * len(self.lent)
        if not self.many:
            line += c.turn(['asked'], '', 'lies0')
        for h in self.lent[1:]:
            line += c.split('asked', f'lies{h.order - 1}', f'lies{h.order}' if h is self.lent[-1] else 'asked')
        self.say(line)
        for h in self.lent:
            places = [g.block if g.order < h.order else 'p' if g is h else g.pointer for g in self.lent]
            y = f'(y {" ".join(places)})'
            line = c.front(f'lies{h.order}')
            self.say(f'{line}in_a_block ! {h.pointer} (λ p. {h.handle.at} p {h.old}) (id⊢ 𝓤 _) (λ {h.spot} e.')
            self.say(f'regoal ! (λ p. prop (WpFn 𝓤 𝓛.H 𝓣.C 𝓣.Λ code.function (W.args {y}) (W.post {y}))) e refl $')
        self.say(f'enter ! _ _ _ _ _ $ alloc_all ! (λ l. pass_all ! refl {nested(p.typed for p in self.export.params)} $')

    def lends(self):
        for h in self.lent:
            i, m = h.order, h.mark
            line = 'sets ! (of_opd ! (get ! refl)) refl (tt, tt) $ '
            line += self.context.turn([f'lies{i}'], f'lends ! tt R{m} (named {i}) {h.old} {h.spot} (λ α{m} δ{m}.', f'lent{i}', f'lender{i}', f'token{i}')
            self.say(line)
            self.say('sets ! (addr ! (through ! refl (stop !))) refl (tt, tt) $')
        for p in self.export.params:
            for step in p.passed:
                self.say(step)

    def calls(self):
        c = self.context
        lifetimes = nested([f'α{h.mark} ∷ []' for h in self.lent], 'κs')
        shares = nested(['full_share'] * len(self.lent), 'qs')
        loans = [h.loan for h in self.lent]
        args = nested(loans[:1] + ['a.0'] * self.heap + loans[1:], 'a' + self.after)
        spots = [f'vptr {h.spot} ∷ []' for h in self.lent]
        vals = nested(spots[:1] + ['heap_val ∷ []'] * self.heap + spots[1:], f'(y {self.pointers}).0.4{self.after}')
        self.say(f'let z : G.Ghost = (({lifetimes}, {shares}, tt, {args}, {vals}), tt) in')
        line = ''.join(c.join(f'lent{h.order}', 'rest', 'rest', step='fjoin') for h in reversed(self.lent[1:]))
        line += c.join('heap', 'rest', 'rest', step='fjoin') if self.heap else ''
        line += c.join('lent0', 'rest', 'rest', step='fjoin')
        for h in reversed(self.lent):
            line += c.join(f'token{h.order}', 'tokens', 'tokens')
        line += c.join('tokens', 'rest', 'asked')
        self.say(line + 'nothing ! $ move ! (1 ∷ 0 ∷ []) $ use2 𝓛 (raw (G.pre z)) (id⊢ 𝓤 _) $')
        operands = 'no_more !'
        for _ in self.export.params:
            operands = f'and_then ! (get ! refl) ({operands})'
        self.say(f'calls_at ! (framed 𝓤 𝓛.H 𝓜 𝓣) G (met 𝓤 𝓛 𝓜 𝓡 ({called(self.export)} 𝓡.env wired)) z ({operands}) (λ v.')

    def hears(self):
        """The call has returned: its result is stored, and it has said what it left."""
        c, export = self.context, self.export
        row = export.result
        result = 'Unit {0}' if row == 'unit' else 'ℕ'
        value = f'({export.value})' if self.many else export.value
        self.say(f'let P : {result} → Lasts g.ended z.0.0 z.0.3 → {value} → Type 0 = λ u ws new. {self.relation()} in')
        self.say(f'{ANSWERS} (lasts g.ended z.0.0 z.0.3) (λ u ws. P u ws {self.last}) (λ u. id⊢ 𝓤 _) (λ u ws told.')
        tokens = ''.join(f'‵ (flft (α{h.mark} ∷ []) full_share) ⊛ ' for h in self.lent) + 'raw (alive 𝓛 S κs qs)'
        line = c.turn(['asked'], f'use1 𝓛 ({tokens}) (id⊢ 𝓤 _) $ ', 'tokens', 'result', 'rest')
        for h in self.lent:
            line += c.split('tokens', f'token{h.order}', 'tokens')
        self.say(line)
        line = c.front('result')
        if row == 'unit':
            self.say(line + 'feq_l ! (λ is. lands_as ! (ap only is) refl (tt, tt) $ feq_i ! _ (vunit ∷ []) _ refl $')
        else:
            typed = f'((uint_Lawful 𝓛 w{BITS[row]}).typed u _ is).0'
            self.say(line + f'peeks ! {row} (Is {row}) (shows 𝓛 {row}) u (v ∷ []) (λ is. lands_as ! refl refl {typed} $')
        line = ''
        for part in ['last0'] + ['heap'] * self.heap + [f'last{h.order}' for h in self.lent[1:]]:
            line += c.split('rest', part, 'rest', step='fsplit')
        self.say(line)

    def relation(self):
        """The relation, in the walk's words: x is what lay there, u the result, and ws has the last values."""
        words = {'old': 'x', 'result': 'u'}
        for p in self.export.params:
            if p.kind not in ('heap', 'handle'):
                words[p.name] = p.of('a')
                words[p.name + '.now'] = words[p.name + '.old'] = p.of('a') + '.now'
                words[p.name + '.new'] = p.of('ws')
        return re.sub(r'\w+(\.(now|old|new)\b)?', lambda m: words.get(m.group(0), m.group(0)), self.export.relation)

    def takes_back(self):
        c = self.context
        for h in self.lent:
            i, m = h.order, h.mark
            self.say(c.turn([f'last{i}', f'token{i}', f'lender{i}'], f'takes_back ! tt R{m} α{m} δ{m} {h.last} {h.spot} $', f'lies{i}'))
        line, there = '', f'{self.lent[0].handle.at} {self.lent[0].block}' + (' s.0' if self.many else '')
        for h in self.lent[1:]:
            line += c.join('lies0', f'lies{h.order}', 'lies0', step='fjoin')
            there = f'fsep ({there}) ({h.handle.at} {h.block} s.{h.order})'
        there = f'λ s. {there}' if self.many else there
        self.say(f'{line}{c.front("lies0")}packs ! ({there}) (P u ws) {self.last} told $')

    def ends(self):
        c = self.context
        line = c.front('rest') + 'nothing ! $ fjoin ! $ ' * len(self.lent)
        line += c.join('heap', 'rest', 'rest', step='fjoin') if self.heap else ''
        self.say(line)
        if self.export.result == 'unit':
            self.say('sets ! (of_opd ! (unit_lit !)) refl (tt, tt) $')
        self.say(f'returns ! (look_at ! 0 refl) $ free_all ! refl $ keep ! {c.at("tokens", "rest", "result", "lies0")} $')
        y = f'(y {" ".join(h.block for h in self.lent)})'
        result = 'vunit tt' if self.export.result == 'unit' else 'v u'
        last = nested(['ws.1.0'] * self.heap + ['tt'] * len(self.lent), 'ws' + self.after)
        self.say(f'suffices ! _ (leaves 𝓛 f.ended stayed c {y} {result} {last} {nested(["tt"] * len(self.export.params))}) $ done !')


def blank_walk(export):
    """The walk of an export that writes a new value into room."""
    room = export.handles[0].at
    lines = HEAD + [
        PROVED,
        '(λ κs. (rawptr_vals, tt)) (λ κs. (rawptr_Tells, tt)) (λ κs qs bounds a x are.',
        'let y : Ptr → W.Ghost = λ p. ((κs, qs, bounds, (p, tt), (rawptr_vals p, tt)), x) in',
        f'qed 𝓛 ((raw (alive 𝓛 S κs qs) ⊛ ‵ (owns (types_at S.params κs) a (y a.0).0.4)) ∷ ‵ ({room} a.0) ∷ []) ∵',
        'split ! $ move ! (1 ∷ []) $ drop ! $ move ! (1 ∷ []) $',
        f'in_a_block ! a.0 (λ p. {room} p) (id⊢ 𝓤 _) (λ b o e.',
        'regoal ! (λ p. prop (WpFn 𝓤 𝓛.H 𝓣.C 𝓣.Λ code.function (W.args (y p)) (W.post (y p)))) e refl $',
        'enter ! _ _ _ _ _ $ alloc_all ! (λ l. pass_all ! refl ((tt, tt), tt) $',
        'sets ! (of_opd ! (get ! refl)) refl (tt, tt) $',
        'let z : G.Ghost = ((tt, tt, tt, tt, tt), tt) in',
        'nothing ! $ nothing ! $ join ! $ nothing ! $ move ! (1 ∷ 0 ∷ []) $ use2 𝓛 (raw (G.pre z)) (id⊢ 𝓤 _) $',
        f'calls_at ! (framed 𝓤 𝓛.H 𝓜 𝓣) G (met 𝓤 𝓛 𝓜 𝓡 ({called(export)} 𝓡.env wired)) z (no_more !) (λ v.',
        f'{ANSWERS} (λ (ws : Unit {{0}}). lasts g.ended z.0.0 z.0.3 ws) (λ h ws. h ≡ {export.relation}) (λ h. id⊢ 𝓤 _) (λ h ws new.',
        '-- [nothing; the new value; nothing; the room; the tokens]',
        'drop ! $ peeks ! R (Is R) (shows 𝓛 R) h (v ∷ []) (λ is.',
        'let typed = ((the_row_laws.lawful 𝓛).typed h (v ∷ []) is).0 in lands_as ! refl refl typed $',
        'assigns ! (of_opd ! (get ! refl)) (through ! refl (stop !)) (init ! 2 refl typed) $',
        'move ! (2 ∷ 0 ∷ []) $ use2 𝓛 (‵ (part_at R full_share h b o)) (part_in 𝓛 R refl full_share h b o v) $',
        'rewrite ! 0 (λ (s : R.Denot). ‵ (part_at R full_share s b o)) new refl $',
        'sets ! (of_opd ! (unit_lit !)) refl (tt, tt) $',
        'feq_i ! _ (vunit ∷ []) _ refl $ nothing ! $ nothing ! $ fjoin ! $',
        'returns ! (look_at ! 0 refl) $ free_all ! refl $ keep ! (4 ∷ 0 ∷ 1 ∷ 2 ∷ []) $',
        'suffices ! _ (leaves 𝓛 f.ended stayed c (y (block_ptr b o)) vunit tt (tt, tt) (tt, tt)) $ done !',
    ]
    return '\n'.join('    ' + line for line in lines)


def imports(source, export, body):
    """The lines that a walk of this text wants."""
    used = {word.split('.')[0] for word in re.findall(r'[^\s(),;{}]+', body)}
    used |= {f'◌{word}◌' for word in used}
    steps = []
    for line in (CRATE / 'proofs/Steps.antt').read_text().splitlines():
        if m := re.match(r'pub use ([\w.]+)\.\{(.*)\}', line):
            steps += [n.split(' as ')[-1] for n in m.group(2).split(', ')]
    wanted = dict.fromkeys(n for n in steps if n in used)
    here = f'Rattle.{CRATE.name}'
    below = f'Rattle.{LIBRARY}'
    path = '.'.join(export.path)
    lines = [f'use {here}.proofs.Steps.{{{", ".join(wanted)}}}']
    cited = {}
    for module, names in re.findall(r'ghost use (Rattle\.(?!std\.)[\w.]+)\.\{(.*)\};', source):
        cited.setdefault(module, []).extend(n for n in names.split(', ') if n in used)
    lines += [f'use {module}.{{{", ".join(names)}}}' for module, names in cited.items() if names]
    for i, h in enumerate(export.handles):
        lines.append(f'use {below}.specs.contracts.{h.path}.{{the_row as R{chr(39) * i}}}')
    if 'the_row_laws' in used:
        lines.append(f'use {below}.proofs.{export.handles[0].path}.TheLaws.{{the_row_laws}}')
    for row in dict.fromkeys(p.row for p in export.params if p.kind in ('out', 'outs', 'slice') and p.row in MODULES):
        lines.append(f'use {below}.specs.contracts.{MODULES[row]}.{row}.{{the_row as {row}}}')
    method = f'{export.handles[0].path}.{export.method}'
    return lines + [
        f'use {here}.specs.contracts.{path} as f',
        f'use {here}.proofs.{path}.Statement.{{statement}}',
        f'use {here}.proofs.{path}.Code as code',
        f'use {below}.specs.contracts.{method} as g',
        f'use {below}.proofs.{method}.Met.{{met}}',
    ]


def narrow(line, most=160):
    """The line, as several where it is longer: an import as two, another one where the fewest brackets are open, the last of such places."""
    if len(line) <= most:
        return [line]
    if line.startswith('use '):
        at = line.rindex(', ', 0, most - 1)
        return [line[:at] + '}', *narrow(line[: line.index('{') + 1] + line[at + 2 :], most)]
    margin = len(line) - len(line.lstrip())
    places, depth = [], 0
    for at, letter in enumerate(line[:most]):
        depth += (letter in '([{') - (letter in ')]}')
        if letter == ' ' and at > margin + 20 and line[at + 1] not in '=:' and not line[:at].endswith(('→', '⊛', '∷', '=')):
            places.append((depth, -at))
    at = -min(places)[1]
    return [line[:at], *narrow(' ' * (margin + 4) + line[at + 1 :], most)]


def write(source, export, crate):
    body = blank_walk(export) if export.is_blank else Walk(export).text()
    body += ')' * (body.count('(') - body.count(')'))
    what = 'A new value is written into the room.' if export.is_blank else 'What lies at the handle is lent for the time of the call, and lies there again after it.'
    text = [f'-- {what}', *imports(source, export, body), '', f'pub {export.name}_spec : {{M : Type 1}} → statement M', f'{export.name}_spec 𝓤 𝓛 𝓜 𝓡 wired =', body]
    path = crate.joinpath('proofs', *export.path, 'Proof.antt')
    path.parent.mkdir(parents=True, exist_ok=True)
    lines = '\n'.join(text).split('\n')
    path.write_text('\n'.join(short for line in lines for short in narrow(line)) + '\n')


def write_walks(names, crate=CRATE):
    for file in sorted(crate.glob('src/*.rt')):
        source = file.read_text()
        for export in read_exports('' if file.stem == 'lib' else file.stem, source):
            if not names or export.name in names:
                write(source, export, crate)


def held():
    """Tells the walks that aren't what is written now, and gives whether there are any."""
    with tempfile.TemporaryDirectory() as folder:
        copy = Path(folder) / CRATE.name
        shutil.copytree(CRATE, copy, ignore=shutil.ignore_patterns('out'))
        for walk in copy.glob('proofs/**/Proof.antt'):
            walk.unlink()
        write_walks([], copy)
        subprocess.run(['rt', 'fmt'], cwd=copy, check=True, stdout=subprocess.DEVNULL)
        written = {file.relative_to(copy): file.read_bytes() for file in copy.glob('proofs/**/Proof.antt')}
    there = {file.relative_to(CRATE): file.read_bytes() for file in CRATE.glob('proofs/**/Proof.antt')}
    others = sorted(walk for walk in written.keys() | there.keys() if written.get(walk) != there.get(walk))
    for walk in others:
        print(f'{CRATE.name}/{walk} is not what bench/walks.py and rt fmt write')
    print('run bench/walks.py, and rt fmt in its crate' if others else f'{len(written)} walks of exports are as bench/walks.py writes them')
    return bool(others)


if __name__ == '__main__':
    if sys.argv[1:] == ['--held']:
        sys.exit(held())
    write_walks(sys.argv[1:])
