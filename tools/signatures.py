"""Prints the lists at the end of docs/DESIGN-PASS.md: what went and what is worded otherwise, old beside new.

    python3 tools/signatures.py CONTRACTS THEN NOW

THEN and NOW are two trees of this repository. CONTRACTS is the kit's port/contracts.py, which finds what differs; this
script says, for what is gone, where its promise stands now, and lays everything out as tables.
"""
import collections
import importlib.util
import json
import pathlib
import re
import subprocess
import sys

# Functions that went, by crate, file and name, and what states their promise now.
SUCCESSORS = [
    (r'^arithmetic .*ArithmeticFault number', '`u8::from` of an `ArithmeticFault`'),
    (r'^arithmetic .* narrow', "std's `checked_*`, in each operator"),
    (r'^changes src/moves.rt copy_', '`element::cells::copy` and `Tables::copy`, for any overlap'),
    (r'^(changes .* indexed|selections .* answer)', '`expressions::answers::answer`'),
    (r'^changes .* values_at', '`expressions::operands::cells_of`'),
    (r'^checker src/(judge|lookup)',
     'the method of that name of `Position` (judge_row: `judge`; is_expression_placed, is_change_placed, is_control_placed: `is_placed` and its parts; can_turn, can_close, is_control_nested: `is_nested` and its parts; innermost_loop, loop_row: `nesting`; line_at, typing_at: of `Position`)'),
    (r'^element .* (null_element|longest_text|kind)', 'the constant with its ghost: `NULL`, `LONGEST`, `KIND`'),
    (r'^element .* same', '`==`, with the law `same` of `Element`'),
    (r'^element .* byte_of', '`write_text` of `i8`, which writes `byte_of`'),
    (r'^element src/decimals', '`text_len` and `write_text` of `i32`'),
    (r'^element .* resize_row', '`resize_matrix`'),
    (r'^elementwise .* combine_from', '`combine`'),
    (r'^elementwise .* (make_from|write)', '`make`, `try_make`'),
    (r'^elementwise .* map_from', '`map`'),
    (r'^elementwise src/operands', 'the variants of `element::operands::Operand`'),
    (r'^expressions .* written', '`size_or`, at 0'),
    (r'^fault .* number', '`u8::from` of a `Cause`'),
    (r'^instruction src/decoding', '`expression_of`'),
    (r'^instruction .* is_zero', '`is_plain`'),
    (r'^instruction src/operators', '`TryFrom<u16>` of the enum'),
    (r'^picks .* (names_element|place_of)', '`place_among`'),
    (r'^picks src/operands', '`place` of `element::operands::Operand`'),
    (r'^picks src/places', '`check`, `at` and `place` of `Listed`'),
    (r'^print .* gap_len', '`write_gap` and `vector_len`'),
    (r'^(rules|sheet) .* Refusal number', '`u16::from` of a `Refusal`'),
    (r'^sheet .* Head from_numbers', '`TryFrom<HeadNumbers>` of `Head`'),
    (r'^sheet .* Head numbers', '`HeadNumbers::from`'),
    (r'^source src/(letter|numeral)', '`tells` of `Scanner`, which `read_word` gives'),
    (r'^source src/line', '`Source` for `Line` (`peek`, `take`) and `push_decimal`'),
    (r'^source src/reader', '`read_value`, which cannot fail either, over `read` of `Readable` for `i32`, `bool`, `i8`'),
    (r'^source src/(recorder|text)', '`new`, `peek` and `take` of the source'),
    (r'^source src/state', '`Ok`, `Err(Misread::BadWord)`, `Err(Misread::Ended)`'),
    (r'^source .* scan_word', '`read_word`'),
    (r'^source_trials', '`trial` and `trials`, generic'),
    (r'^sheet_trials', '`extend_from_slice` of the bytes'),
    (r'^tables .* (equal|equal_throughout|print)\b', 'the method of that name of `Shared`, the tables lent to be read'),
    (r'^tables ', 'the method of that name of `Tables`'),
    (r'^types src/kinds.rt (Form|Kind|Shape) (number|from_number)', '`From` for `u16`, `TryFrom<u16>`'),
    (r'^types src/kinds.rt \w+ same', 'the derived `==`'),
    (r'^types src/kinds.rt Size', '`sizes::size_number`, `sizes::size_from`'),
    (r'^types src/sizes.rt Size (is_exactly|is_known|or_else)', '`== Some(n)`, `is_some`, `or` of the option'),
    (r'^types src/sizes.rt Size', 'the function of that name in `types::sizes` (agrees: `agree`)'),
    (r'^words .*write_byte', "std's `escape_ascii`, and for what is not printed its number at once"),
    (r'^words .*KindWords', '`kind_word`'),
    (r'^words .*(combination|comparison)', '`infix` of that file'),
]

DEFINITIONS = [
    ('`changes` `indexed`, `selections` `answered`',
     '`answered` of `expressions/specs/Answers.antt`'),
    ('`changes` `values_at`',
     '`cells_of` of `expressions/specs/Pairs.antt`'),
    ('`elementwise` `along`, `end_of`, `place_of`',
     'the same in `element/specs/Operands.antt`'),
    ('`elementwise` `run_at`, `scalar_at`',
     'the variants `Run` and `Scalar`'),
    ('`picks` `values_of`, `value_place`',
     '`along`, `place_of` of `element/specs/Operands.antt`'),
    ('`source` `going`',
     '`recorded`, without it: the readings that are left are a slice'),
]

# Functions that have another name now, or of which only a namesake stands: crate and name, and the names that have
# their contract.
NAMES = {
    ('changes', 'copy_down'): ['copy'],
    ('changes', 'copy_cells_down'): ['copy'],
    ('checker', 'judge_row'): ['judge'],
    ('checker', 'is_expression_placed'): ['is_placed'],
    ('checker', 'is_change_placed'): ['is_placed'],
    ('checker', 'is_control_placed'): ['is_placed'],
    ('checker', 'can_turn'): ['is_nested'],
    ('checker', 'can_close'): ['is_nested'],
    ('checker', 'is_control_nested'): ['is_nested'],
    ('element', 'digit_count'): ['text_len'],
    ('element', 'write_decimal'): ['write_text'],
    ('elementwise', 'combine_from'): ['combine'],
    ('elementwise', 'make_from'): ['make', 'try_make'],
    ('elementwise', 'write'): ['make', 'try_make'],
    ('elementwise', 'map_from'): ['map'],
    ('picks', 'first_outside'): ['check'],
    ('picks', 'first_outside_matrix'): ['check'],
    ('picks', 'index_at'): ['at'],
    ('picks', 'place_at'): ['place'],
    ('picks', 'place_of'): ['place_among'],
    ('picks', 'names_element'): ['place_among'],
    ('picks', 'place'): [],
    ('source', 'ended'): [],
    ('source', 'read'): ['tells'],
    ('source', 'read_boolean'): ['read'],
    ('source', 'read_character'): ['read'],
    ('source', 'read_integer'): ['read'],
    ('source', 'scan_word'): ['read_word'],
    ('types', 'agrees'): ['agree'],
}

# Ghost members and constants that went.
MEMBERS = {
    'ZERO': '`u16::try_from(..).unwrap_or(0)`',
    'whole': 'the length of an `ArrayVec` is its own',
    'kind_of': '`KIND`',
    'longest': '`LONGEST`',
    'null': '`NULL`',
}

# Lemmas of a crate that stand in another one, in these or stronger words.
ELSEWHERE = {
    ('changes', 'along_cells'): '`along_cells` of `expressions/proofs/Pairing.antt`',
    ('changes', 'read_above'): 'nothing needs it: the loop that it served went with `copy_down`',
    ('checker', 'never'): 'the check finds alone what it closed',
    ('elementwise', 'row_below'): '`row_below` of `element/proofs/Lines.antt`',
    ('source', 'says'): '`says` of `source/specs/BooleanWords.antt`',
    ('laws', 'never'): '`never` of `meaning/proofs/Shells.antt`',
}

THEOREMS = """The theorems of specs/ stand as they stood: `Unique` (sheet), `Division`, `LowBytes` (arithmetic), `Examples`
(meaning), `Effects`, `Wholes`, `RowsSafe`, `AcceptedSafe` (laws), `Structured` (checker), and the laws of the traits
`Element`, `Integers`, `Operator`, `Rule`, `Source`, `Scanner`. Where their words differ, it is by the definitions
above: `None` and `Some` for an open and a known size, `Declare` of a type, a read as a result. `Element` has two laws
more (`infallible`, `exact`, of copies), `Integers` one (`part`), `Scanner` one (`tells`)."""


def code(text):
    """The text as code in a cell of a table; a dash where there is none."""
    return '`' + text.replace('|', '\\|').replace('\n', ' ') + '`' if text else '–'


def table(title, columns, rows, said=''):
    """A list of the page: a heading, what is said of it, and its rows."""
    print(f'\n## {title}\n')
    if said:
        print(said + '\n')
    print('| ' + ' | '.join(columns) + ' |')
    print('|' + '---|' * len(columns))
    for row in rows:
        print('| ' + ' | '.join(row) + ' |')


def gone_functions(functions):
    """Rows of functions that went, those with the same successor together."""
    groups = collections.OrderedDict()
    for function in functions:
        name = re.sub(r' \(requires.*', '', function)
        now = next((now for pattern, now in SUCCESSORS if re.search(pattern, name)), '**not said**')
        groups.setdefault(now, []).append(code(name))
    return [(', '.join(names), now) for now, names in groups.items()]


def contract(function, name):
    """The whole contract of a function, on a line."""
    clauses = (f'{c[0]} {c[1] + " " if c[1] else ""}{{ {c[2]} }}' for c in function['requires'] + function['ensures'])
    return code(' '.join((name + function['sign'], *clauses)))


def moved(script, then, now, gone):
    """Rows of functions that have another place or name, with their whole contracts."""
    spec = importlib.util.spec_from_file_location('contracts', script)
    contracts = importlib.util.module_from_spec(spec)
    spec.loader.exec_module(contracts)
    old, new = contracts.read(then)[1], contracts.read(now)[1]
    gone = {re.sub(r' \(requires.*', '', function) for function in gone}
    for (crate, file, place, name), functions in sorted(old.items()):
        if ' '.join(p for p in (crate, file, place, name) if p) not in gone:
            continue
        names = NAMES.get((crate, name), [name])
        for function in functions:
            here = [contract(f, f'{k[2]}.{k[3]}' if k[2] else k[3]) for k, found in sorted(new.items())
                    if k[0] in (crate, 'tables' if crate == 'changes' else crate) and k[3] in names
                    for f in found if f['requires'] or f['ensures']]
            if here and (function['requires'] or function['ensures']):
                yield code(f'{crate} {file}'), contract(function, f'{place}.{name}' if place else name), '<br>'.join(here)


def lemmas(tree):
    """The crate and the name of each lemma and definition of a tree's proofs."""
    found = set()
    for file in pathlib.Path(tree, 'crates').glob('*/proofs/**/*.antt'):
        if file.name in ('Answers.antt', 'Invariants.antt', 'Lib.antt'):
            continue
        crate = file.relative_to(pathlib.Path(tree, 'crates')).parts[0]
        for m in re.finditer(r'^\s*(?:abbrev |unfoldable )?pub (?:record )?([^\s:({]+) [:({]', file.read_text(), re.M):
            found.add((crate, m.group(1)))
    return found


def gone_lemmas(then, now):
    """Rows of lemmas that a crate has no more, and of those that stand elsewhere."""
    kept = lemmas(now)
    names = {name for _, name in kept}
    crates = collections.OrderedDict()
    for crate, name in sorted(lemmas(then)):
        if (crate, name) not in kept and name not in names:
            crates.setdefault(crate, []).append(code(name))
    for (crate, name), says in ELSEWHERE.items():
        if (crate, name) not in kept:
            crates.setdefault(crate, []).append(f'{code(name)} ({says})')
    return [(crate, ', '.join(names)) for crate, names in sorted(crates.items())]


def beside(old, new):
    """Pairs of the clauses that differ: by their names, else where only one is left on either side."""
    old, new = [tuple(c) for c in old], [tuple(c) for c in new]
    left, right = [c for c in old if c not in new], [c for c in new if c not in old]
    pairs = []
    lone = len(left) == len(right) == 1
    for clause in left:
        name = clause[0]
        match = next((c for c in right if c[0] == name), None)
        if match is None:
            match = next((c for c in right if lone or not name or not c[0]), None)
        if match is not None:
            right.remove(match)
        pairs.append((clause, match))
    return pairs + [(None, clause) for clause in right]


def clauses(changed):
    """Rows of the clauses that differ."""
    for function, old_asks, old_gives, new_asks, new_gives in changed:
        for word, old, new in (('requires', old_asks, new_asks), ('ensures', old_gives, new_gives)):
            def said(clause):
                return code(f'{word} {clause[0] + " " if clause[0] else ""}{{ {clause[1]} }}') if clause else '–'
            for a, b in beside(old, new):
                yield code(function), said(a), said(b)


def worded(entries):
    """Rows of items whose last two parts are the old and the new words."""
    for *name, old, new in entries:
        yield code(' '.join(name).replace('> Rule', 'Rule')), code('; '.join(old)), code('; '.join(new))


def main(script, then, now):
    run = subprocess.run(['python3', script, then, now, '--json'], capture_output=True, text=True, check=True)
    found = json.loads(run.stdout)
    table('Functions that went, and where their promise stands now', ('function', 'states its promise now'),
          gone_functions(found['functions not found again']))
    table('Contracts of functions that have another place or name', ('where', 'old', 'new'),
          moved(script, then, now, found['functions not found again']),
          'Functions of the list above whose contract stands under a name now, each with its whole contract.')
    table('Definitions that went', ('definition', 'says the same now'), DEFINITIONS)
    table('Lemmas of proofs/ that went', ('crate', 'lemmas'), gone_lemmas(then, now),
          'Nothing cites them now: the check finds what they said alone, by its own lemmas or by those of std; or the '
          'function whose proof they served is one of those above. None of them stood in specs/ or is named in README '
          'or docs/.')
    table('Signatures, old and new', ('function', 'old', 'new'),
          [(code(n), code(o), code(w)) for n, o, w in found['signatures changed']
           if '_trials' not in n and not n.startswith('sheetls')])
    table('Clauses, old and new', ('function', 'old', 'new'), clauses(found['contracts changed']),
          'Only clauses that differ; a clause without a counterpart stands alone. `–` on the right: the clause is '
          'needless, or the type says it.')
    ghosts = found['ghost items and constants']
    table('Ghost fields, ghost members, laws and constants', ('item', 'old', 'new'),
          [*worded(ghosts.get('changed', [])),
           *((code(' '.join(e)), 'stood', MEMBERS.get(e[-1], '–')) for e in ghosts.get('gone', []))])
    table('Definitions, old and new', ('definition', 'old', 'new'), worded(found['definitions'].get('changed', [])))
    print('\n## Theorems\n\n' + THEOREMS.replace('\n', ' '))


if __name__ == '__main__':
    main(*sys.argv[1:4])
