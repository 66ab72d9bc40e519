#!/usr/bin/env python3
"""Looks at the pages that `wfpage` writes, outside the gate.

  bench/pages.py [--look FOLDER] [--large]

Of each example that has a record the page is written once more by the writer below, which shares only the texts of the tags with the
program (it reads them from crates/wf_html/src), and both have to be the same bytes. With --look each page is opened in a headless
Chromium (Debian's package chromium), 1,280 and 400 pixels wide, in light and in dark, and its pictures are put into the folder. With
--large the program is timed on a definition of 500 actions and a record of 10,000 rows. `WFPAGE` names the program, else it is
crates/wfpage/out/LLVM's."""
import argparse, glob, hashlib, json, os, re, subprocess, sys, tempfile, time

TOP = os.path.dirname(os.path.dirname(os.path.abspath(__file__)))
STATUSES = ['Succeeded', 'Failed', 'Skipped', 'TimedOut', 'Cancelled']
KINDS = ('Compose Wait Response Terminate Select Query Join ParseJson InitializeVariable SetVariable IncrementVariable DecrementVariable '
         'AppendToArrayVariable AppendToStringVariable Scope If Switch Foreach Until').split()
ATTEMPTS = {'noConnection': 'no connection', 'timedOut': 'timed out', 'noAnswer': 'no answer', 'unknown': 'unknown'}
REFERENCES = {'&': '&amp;', '<': '&lt;', '>': '&gt;', '"': '&quot;', "'": '&#39;'}


def source(name):
    return open(os.path.join(TOP, 'crates', 'wf_html', 'src', name), encoding='utf-8').read()


def tags():
    """What is written as each tag opens and closes, by its name; of boxes and marks by name and look."""
    opens, closes = {'Page': re.search(r'r#"(.*?)"#;', source('style.rt'), re.S).group(1)}, {}
    text = source('tag.rt')
    for name, literal in re.findall(r'Look::(\w+) => "(.*)",', text):
        kind = 'Box' if 'section' in literal else 'Mark'
        opens[kind, name] = literal.replace('\\"', '"')
    first, second = text.split('What is written as it closes')
    for name, literal in re.findall(r'Tag::(\w+)(?:\(\w+\))? => "(.*)",', first):
        opens[name] = literal.replace('\\"', '"')
    for name, literal in re.findall(r'Tag::(\w+)(?:\(\w+\))? => "(.*)",', second):
        closes[name] = literal.replace('\\n', '\n')
    return opens, closes


OPENS, CLOSES = tags()


class Page:
    def __init__(self, definition, record, earlier):
        self.parts, self.rows = [], {}
        for row in record['rows']:
            self.rows.setdefault(row['name'], []).append(row)
        self.earlier = None if earlier is None else {(row['name'], tuple(row['at'])): row for row in earlier['rows']}
        self.open('Page')
        self.one('Title', record['run'])
        self.open('Body')
        self.header(record, earlier)
        self.graph(definition['actions'])
        self.close('Body')
        self.close('Page')

    def open(self, tag):
        self.parts.append(OPENS[tag])

    def close(self, tag):
        self.parts.append(CLOSES[tag if isinstance(tag, str) else tag[0]])

    def say(self, text):
        self.parts.append(''.join(REFERENCES.get(c, c) for c in text))

    def one(self, tag, text):
        self.open(tag)
        self.say(text)
        self.close(tag)

    def fact(self, name, text):
        self.one('Term', name)
        self.open('Value')
        self.one('Data', text)
        self.close('Value')

    def facts(self, of, names):
        for name in names:
            if of[name] is not None:
                self.fact(name, compact(of[name]))

    def header(self, record, earlier):
        self.open('Header')
        self.one('Heading', record['run'])
        self.open('Line')
        self.one(('Mark', record['status']), record['status'])
        self.close('Line')
        if earlier is not None:
            self.open('Line')
            self.say('beside ')
            self.say(earlier['run'])
            self.close('Line')
        self.open('Facts')
        self.facts(record, ['error', 'response', 'outputs'] if record['outputs'] != {} else ['error', 'response'])
        self.facts({'trigger': record['trigger']['outputs']}, ['trigger'])
        self.close('Facts')
        self.close('Header')

    def graph(self, actions):
        levels = {}

        def level(name):
            if name not in levels:
                levels[name] = max([1 + level(other) for other in actions[name].get('runAfter', {})], default=0)
            return levels[name]
        self.open('Graph')
        for depth in range(max(map(level, actions), default=-1) + 1):
            self.open('Level')
            for name in sorted(actions, key=str.encode):
                if levels[name] == depth:
                    self.action(name, actions[name])
            self.close('Level')
        self.close('Graph')

    def action(self, name, action):
        rows = self.rows.get(name, [])
        box = 'Box', 'Absent' if not rows else rows[0]['status'] if len(rows) == 1 else 'Several'
        kind = next((k for k in KINDS if k.lower() == action['type'].lower()), 'Connector')
        self.open(box)
        self.one('Name', name)
        self.one('Kind', kind)
        for other, statuses in sorted(action.get('runAfter', {}).items(), key=lambda entry: entry[0].encode()):
            self.after(other, {status.lower() for status in statuses})
        self.all_rows(kind in ('Scope', 'If', 'Switch'), rows)
        self.held(kind, action)
        self.close(box)

    def after(self, name, statuses):
        self.open('After')
        self.say('after ' + name)
        if statuses != {'succeeded'}:
            for status in [s for s in STATUSES if s.lower() in statuses] or ['never']:
                self.say(' ')
                self.one('Wanted', status)
        self.close('After')

    def counts(self, rows):
        for status in STATUSES:
            count = sum(row['status'] == status for row in rows)
            if count:
                self.say(' ')
                self.one(('Mark', status), '%d %s' % (count, status))

    def all_rows(self, closes, rows):
        if not rows:
            self.one(('Mark', 'Absent'), 'no row')
        elif len(rows) == 1:
            self.row(closes, rows[0])
        else:
            self.open('Fold')
            self.open('Summary')
            self.one(('Mark', 'Several'), '%d rows' % len(rows))
            self.counts(rows)
            self.close('Summary')
            self.open('Rows')
            for row in rows[:100]:
                self.row(closes, row)
            if rows[100:]:
                self.open('Line')
                self.say('%d more:' % len(rows[100:]))
                self.counts(rows[100:])
                self.close('Line')
            self.close('Rows')
            self.close('Fold')

    def row(self, closes, row):
        self.open('Fold')
        self.open('Summary')
        self.one('Place', ''.join('/%d' % index for index in row['at']))
        self.one(('Mark', row['status']), row['status'])
        self.say(' ')
        self.one('Code', row['code'])
        if self.earlier is not None:
            self.say(' ')
            self.one(*self.change(closes, row))
        self.close('Summary')
        self.open('Facts')
        self.facts(row, ['inputs', 'outputs', 'error', 'tracked'] if row['tracked'] != {} else ['inputs', 'outputs', 'error'])
        if row['attempts']:
            self.fact('attempts', ''.join('%s\n' % ATTEMPTS.get(attempt, attempt) for attempt in row['attempts']))
        self.close('Facts')
        self.close('Fold')

    def change(self, closes, row):
        old = self.earlier.get((row['name'], tuple(row['at'])))
        if old == row:
            return 'Kept', 'kept'
        if old is not None and closes and old['inputs'] == row['inputs']:
            return 'Closed', 'closed again, was ' + old['status']
        return 'Redone', 'redone' if old is None else 'redone, was ' + old['status']

    def held(self, kind, action):
        words = {'Scope': 'inside', 'Foreach': 'for each item', 'Until': 'until the test holds'}
        if kind in words:
            branches = [(words[kind], action['actions'])]
        elif kind == 'If':
            branches = [('where the test holds', action.get('actions', {})), ('else', action.get('else', {}).get('actions', {}))]
        elif kind == 'Switch':
            cases = sorted(action['cases'].items(), key=lambda case: case[0].encode())
            branches = [('%s: %s' % (name, compact(case['case'])), case['actions']) for name, case in cases]
            branches += [('default', action['default']['actions'])] if 'default' in action else []
        else:
            return
        self.open('Branches')
        for word, actions in branches:
            self.open('Branch')
            self.one('Case', word)
            self.graph(actions)
            self.close('Branch')
        self.close('Branches')


def compact(value):
    return json.dumps(value, separators=(',', ':'), ensure_ascii=False)


def first_record(path):
    return next((json.loads(line) for line in open(path, encoding='utf-8') if line.strip() and not line.startswith('#')), None)


def program():
    return os.environ.get('WFPAGE') or os.path.join(TOP, 'crates', 'wfpage', 'out', 'bin', 'wfpage')


def written(*files):
    start = time.monotonic()
    done = subprocess.run([program(), *files], stdout=subprocess.PIPE, check=False)
    if done.returncode:
        sys.exit('%s: status %d: %s' % (' '.join(files), done.returncode, done.stdout[:200]))
    return done.stdout, time.monotonic() - start


def pictures(page, name, folder):
    with tempfile.NamedTemporaryFile(suffix='.html') as file:
        file.write(page)
        file.flush()
        for width in 1280, 400:
            for dark in False, True:
                picture = os.path.join(folder, '%s-%d-%s.png' % (name, width, 'dark' if dark else 'light'))
                subprocess.run(['chromium', '--headless', '--no-sandbox', '--disable-gpu', '--hide-scrollbars',
                                '--window-size=%d,1800' % width, '--screenshot=' + picture]
                               + (['--blink-settings=preferredColorScheme=0'] if dark else ['--blink-settings=preferredColorScheme=1'])
                               + ['file://' + file.name], stdout=subprocess.DEVNULL, stderr=subprocess.DEVNULL, check=True)


def examples():
    for definition in sorted(glob.glob(os.path.join(TOP, 'examples', '*', 'definition.json'))):
        for output in sorted(glob.glob(os.path.join(os.path.dirname(definition), 'output*'))):
            if first_record(output) is not None:
                yield definition, output


def large(folder):
    """A definition of 500 actions, of which 20 are in a loop of 500 iterations."""
    compose = {'type': 'Compose', 'inputs': 'x' * 40}
    inner = {'I%02d' % n: compose for n in range(20)}
    actions = {'A%03d' % n: dict(compose, **({'runAfter': {'A%03d' % (n - 1): ['Succeeded']}} if n % 4 else {})) for n in range(479)}
    actions['Loop'] = {'type': 'Foreach', 'foreach': list(range(500)), 'actions': inner}
    definition = {'actions': actions, 'contentVersion': '1.0.0.0', 'outputs': {}, 'triggers': {}}
    text = json.dumps(definition, separators=(',', ':'), sort_keys=True)
    row = {'at': [], 'attempts': [], 'code': 'OK', 'error': None, 'inputs': 'x' * 40, 'outputs': 'x' * 40, 'status': 'Succeeded', 'tracked': None}
    rows = [dict(row, name=name) for name in actions] + [dict(row, name=name, at=[n]) for name in inner for n in range(476)]
    rows.sort(key=lambda r: (r['name'].encode(), r['at']))
    record = {'definition': hashlib.sha256(text.encode()).hexdigest(), 'error': None, 'form': 2, 'outputs': {}, 'parameters': {},
              'response': None, 'rows': rows, 'run': 'large', 'status': 'Succeeded', 'trigger': {'name': None, 'outputs': None}}
    files = os.path.join(folder, 'definition.json'), os.path.join(folder, 'record')
    open(files[0], 'w', encoding='utf-8').write(text)
    open(files[1], 'w', encoding='utf-8').write(json.dumps(record, separators=(',', ':'), sort_keys=True) + '\n')
    return files, len(rows)


def main():
    asked = argparse.ArgumentParser()
    asked.add_argument('--look')
    asked.add_argument('--large', action='store_true')
    asked = asked.parse_args()
    for definition, output in examples():
        page, _ = written(definition, output)
        value = json.load(open(definition, encoding='utf-8'))
        own = ''.join(Page(value.get('definition', value), first_record(output), None).parts).encode()
        name = os.path.basename(os.path.dirname(definition)) + os.path.basename(output)[len('output'):]
        print(name, 'same' if page == own else 'OTHER', len(page))
        if asked.look:
            os.makedirs(asked.look, exist_ok=True)
            pictures(page, name, asked.look)
    if asked.large:
        with tempfile.TemporaryDirectory() as folder:
            files, count = large(folder)
            page, seconds = written(*files)
            print('large: %d rows, %.2f s, %.2f MB' % (count, seconds, len(page) / 1e6))


if __name__ == '__main__':
    main()
