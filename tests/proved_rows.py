#!/usr/bin/env python3
"""Looks that each row of docs/PROVED.md names a function and clauses that stand in the file that it names: proved_rows.py TOP"""
import re
import sys


def signatures(text, name):
    """The names behind ensures and behind requires of each function of that name; an unnamed one is ''."""
    lines = text.split('\n')
    for at, line in enumerate(lines):
        if re.match(rf'\s*(pub(\([a-z]+\))? )?(const )?fn {name}\b', line):
            ensures, requires = set(), set()
            for follows in lines[at:]:
                clause = re.match(r'\s*(ensures|requires) (\w*)\s*\{', follows)
                if clause:
                    (ensures if clause[1] == 'ensures' else requires).add(clause[2])
                elif follows.strip() == '{' or follows.rstrip().endswith((' {', ';', '{}')):
                    break
            yield ensures, requires


def wrong(top, function, clauses, files):
    """What is wrong with a row, if anything is."""
    texts = {}
    for file in files:
        try:
            with open(f'{top}/crates/{file}') as opened:
                texts[file] = opened.read()
        except OSError:
            return f'no file {file}'
    source = texts[files[0]]
    *owner, name = function.split('::')
    if owner and not re.search(rf'^\s*(pub )?(impl|trait)\b.*\b{owner[0]}\b', source, re.M):
        return f'no {owner[0]} in {files[0]}'
    fields = {field for file in files[1:] for field in re.findall(r'^  pub (\w+) :', texts[file], re.M)}
    if clauses == ['output']:       # of Display: the text that is shown
        return None if re.search(r'ghost output =', source) and f'fn {name}' in source else 'no output'
    found = list(signatures(source, name))
    if not found:
        return f'no function {name} in {files[0]}'
    for ensures, requires in found:
        known = ensures | requires | fields
        if all(('' in ensures) if clause == 'the contract' else clause in known for clause in clauses):
            if clauses[0] == 'the contract' or clauses[0] in ensures | requires:
                return None
    return f'not all of {", ".join(clauses)} in {", ".join(files)}'


def main(top):
    rows = bad = 0
    with open(f'{top}/docs/PROVED.md') as page:
        for number, line in enumerate(page, 1):
            cells = [cell.strip() for cell in line.strip().strip('|').split(' | ')] if line.startswith('| ') else []
            if len(cells) < 4 or cells[0] == 'Promise':
                continue
            rows += 1
            clauses = [clause.strip(' `') for clause in cells[2].split(',')]
            reason = wrong(top, cells[1].strip('`'), clauses, re.findall(r'`([^`]+)`', cells[3]))
            if reason:
                bad += 1
                print(f'docs/PROVED.md line {number}: {cells[1]}: {reason}')
    print(f'{rows} rows, {bad} wrong')
    return 1 if bad or not rows else 0


if __name__ == '__main__':
    sys.exit(main(sys.argv[1]))
