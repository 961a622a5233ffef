# Holds what the pages say against the sources and against one another:
#   python3 tools/tests/pages.py
# Each law, crate, code and file that a page names is there, and each link leads somewhere; the lists of crates and of scripts are
# whole; no page is longer than its reader was promised; no sentence stands on two pages; and no page but docs/OPEN.md, which says
# what is open, says of anything that it isn't so *yet*, or that it *comes with* something later. Prints what is wrong with its
# page and line, and at the end "N passed, N failed"; the status is 0 where nothing is wrong.
import re
import sys
from collections import defaultdict
from pathlib import Path

TOP = Path(__file__).resolve().parents[2]

# The page of what is open, the one that may say `yet`.
OPEN = TOP / 'docs/OPEN.md'

LAW = re.compile(r'\blaw_\w+')
CRATE = re.compile(r'\bb2_[a-z_]+[a-z]\b')
FILE = re.compile(r'`(b2_\w+)/((?:src|specs|proofs)/[\w/.]+\.(?:rt|antt))`')
# A file of the crate that a page or a section of docs/crates is about.
FILE_HERE = re.compile(r'`((?:src|specs|proofs)/[\w/+]+(?:\.rt|\.antt)?)`')
# A file or a folder of the repository beside its crates.
PLACE = re.compile(r'`((?:tools|tests|examples|docs)/[\w./-]+)`')
# Codes of errors; one of class D is told from the address of a disk by its first digit.
CODE = re.compile(r'\b(?:[ASPCXI]\d|D[89])\d\b')
# What is typed, but for a code alone.
TYPED = re.compile(r'`(?!(?:ERR )?[A-Z]\d\d`)[^`]*`')
LATER = re.compile(r'\byet\b|\bcomes? with\b')
LINK = re.compile(r'\]\(([^)\s]+)\)')
HEADING = re.compile(r'^#+ (.*)$', re.M)

# How many words a page may have, and how many of README may stand before its first command.
README_WORDS, BEFORE_THE_FIRST_COMMAND, MAP_WORDS = 700, 60, 4000
# How many words beside its tables the page of a crate may have, and a paragraph of the page of what is open.
CRATE_WORDS, PARAGRAPH_WORDS = 400, 80
# From how many words on a sentence stands on one page alone.
SENTENCE_WORDS = 8


def pages():
    """The pages, those of crates among them."""
    found = [*TOP.glob('*.md')]
    for folder in ('docs', 'examples', 'tests'):
        found += TOP.glob(folder + '/**/*.md')
    return sorted(found)


def laws():
    """The laws of all crates."""
    return {name for path in TOP.glob('crates/*/src/**/*.rt') for name in re.findall(r'\bfn (law_\w+)', path.read_text())}


def crates():
    return re.findall(r'^(\w+):', (TOP / 'crates.txt').read_text(), re.M)


def codes():
    return set(re.findall(r'^pub const ([A-Z]\d\d)_', (TOP / 'crates/b2_base/src/codes.rt').read_text(), re.M))


def without_blocks(text):
    return re.sub(r'^```.*?^```', '', text, flags=re.M | re.S)


def anchors(text):
    """The places of a page that a link can lead to."""
    return {re.sub(r'[^\w\- ]', '', heading.lower()).replace(' ', '-') for heading in HEADING.findall(without_blocks(text))}


def wrong_link(page, link):
    """What is wrong with a link of a page, if it leads into the repository."""
    if re.match(r'\w+:', link):
        return None
    name, _, anchor = link.partition('#')
    # What is packed has this page at its top.
    folder = TOP if page.name == 'PACKED.md' else page.parent
    target = (folder / name).resolve() if name else page
    if not target.exists():
        return f'no file {link}'
    if anchor and anchor not in anchors(target.read_text()):
        return f'no section {link}'
    return None


def wrong_names(page, line, known):
    """What is to be told of a line."""
    told = [f'no law {name}' for name in LAW.findall(line) if name not in known['laws']]
    told += [f'no crate {name}' for name in CRATE.findall(line) if name not in known['crates']]
    told += [f'no code {name}' for name in CODE.findall(TYPED.sub('', line)) if name not in known['codes']]
    told += [f'no file {crate}/{path}' for crate, path in FILE.findall(line) if not (TOP / 'crates' / crate / path).is_file()]
    told += [f'no file {path}' for path in PLACE.findall(line) if not (TOP / path).exists() and not list(TOP.glob(path + '.*'))]
    told += [what for what in (wrong_link(page, link) for link in LINK.findall(TYPED.sub('', line))) if what]
    later = LATER.search(line)
    if later and page != OPEN:
        told.append(f'it says {later[0]}')
    return told


def names_are_there():
    """For each page what it names and isn't there."""
    known = {'laws': laws(), 'crates': set(crates()), 'codes': codes()}
    for page in pages():
        told = []
        for number, line in enumerate(page.read_text().split('\n'), 1):
            told += [f'{page.relative_to(TOP)}, line {number}: {what}' for what in wrong_names(page, line, known)]
        yield told


def files_of_crates_are_there():
    """For each page of docs/crates which of the files of its crate, or of that of a section, aren't there."""
    for page in sorted((TOP / 'docs/crates').glob('*.md')):
        told, crate = [], page.stem
        for number, line in enumerate(page.read_text().split('\n'), 1):
            section = re.match(r'## (b2_\w+)', line)
            crate = section[1] if section else crate
            folder = TOP / 'crates' / crate
            told += [f'{page.relative_to(TOP)}, line {number}: no file {path} in {crate}' for path in FILE_HERE.findall(line)
                     if folder.is_dir() and not (folder / path).exists() and not list(folder.glob(path + '.*'))]
        yield told


def beside_tables(text):
    """How many words stand beside the tables and the blocks of a page."""
    return sum(len(line.split()) for line in without_blocks(text).split('\n') if not line.startswith('|'))


def too_many(page, what, words, limit):
    return [f'{page.relative_to(TOP)}: {what} {words} words, and at most {limit} are promised'] if words > limit else []


def pages_are_short():
    readme = TOP / 'README.md'
    text = readme.read_text()
    yield too_many(readme, 'it has', len(text.split()), README_WORDS)
    yield too_many(readme, 'before its first command it has', len(text.split('\n$ ')[0].split()), BEFORE_THE_FIRST_COMMAND)
    page = TOP / 'docs/ARCHITECTURE.md'
    yield too_many(page, 'it has', len(page.read_text().split()), MAP_WORDS)
    for page in sorted((TOP / 'docs/crates').glob('b2_*.md')):
        yield too_many(page, 'beside its tables it has', beside_tables(page.read_text()), CRATE_WORDS)
    told = []
    for paragraph in re.split(r'\n\s*\n', OPEN.read_text()):
        if not paragraph.startswith('|'):
            told += too_many(OPEN, f'the paragraph "{paragraph[:30]}.." has', len(paragraph.split()), PARAGRAPH_WORDS)
    yield told


def lists_are_whole():
    """The page of the crates lists them as crates.txt does, each beside those of tests has a page or a section, and CONTRIBUTING
    has each script once."""
    page = TOP / 'docs/crates/README.md'
    listed = re.findall(r'^\| \[?`(b2_\w+)`', page.read_text(), re.M)
    yield [] if listed == crates() else [f'{page.relative_to(TOP)}: its list of crates is not that of crates.txt']
    sections = anchors((TOP / 'docs/crates/statements.md').read_text())
    yield [f'docs/crates: no page of {name}' for name in crates()
           if not (TOP / f'docs/crates/{name}.md').is_file() and name not in sections and not name.endswith('_tests') and name != 'b2_cases']
    table = (TOP / 'CONTRIBUTING.md').read_text().partition('## The scripts')[2]
    rows = re.findall(r'^\| (`.*?) \|', table, re.M)
    named = re.findall(r'`([^`]+)`', ' '.join(rows))
    there = [path.name for folder in ('tools', 'tools/tests') for path in (TOP / folder).iterdir() if path.is_file()]
    yield [f'CONTRIBUTING.md: {name} has {named.count(name)} rows among the scripts' for name in sorted(there) if named.count(name) != 1]


def commands_are_run():
    """Each page with blocks of commands is one that the tests run."""
    tests = ''.join(path.read_text() for path in sorted((TOP / 'tools/tests').glob('*.sh')))
    for page in pages():
        for block, run in (('console', r'consoles_run (\S+)$'), ('sh', r'(\S+\.md)\b')):
            if re.search(rf'^```{block}$', page.read_text(), re.M):
                name = str(page.relative_to(TOP))
                tried = {word.replace('$top/', '').strip('"') for word in re.findall(run, tests, re.M)}
                yield [] if name in tried else [f'{name}: nothing runs its blocks for {block}']


def sentences(text):
    """The sentences of a page, without what only lays them out."""
    for line in without_blocks(text).split('\n'):
        for part in line.strip().strip('|').split('|') if line.startswith('|') else [line]:
            for sentence in re.split(r'(?<=[.:;?!])\s+', part):
                sentence = re.sub(r'[`*]', '', sentence).strip(' -.:;').lower()
                if len(sentence.split()) >= SENTENCE_WORDS:
                    yield sentence


def sentences_stand_once():
    """No sentence stands on two pages. LAWS has the comments of the sources, and CHANGELOG what other pages say by now."""
    where = defaultdict(set)
    for page in pages():
        if page.name not in ('LAWS.md', 'CHANGELOG.md'):
            for sentence in sentences(page.read_text()):
                where[sentence].add(str(page.relative_to(TOP)))
    yield [f'{" and ".join(sorted(found))}: both say "{sentence}"' for sentence, found in sorted(where.items()) if len(found) > 1]


def main():
    passed, failed = 0, []
    for test in (names_are_there, files_of_crates_are_there, pages_are_short, lists_are_whole, commands_are_run,
                 sentences_stand_once):
        for told in test():
            passed += not told
            failed += [f'FAILED {what}' for what in told]
    print('\n'.join(failed + [f'{passed} passed, {len(failed)} failed']))
    return 0 if passed and not failed else 1


if __name__ == '__main__':
    sys.exit(main())
