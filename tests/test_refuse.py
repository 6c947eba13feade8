"""Tests nvme-model --refuse and --delay: which commands they are about, which rules are reported, and what nvme-cli,
smartctl and a script make of it."""

import re
import time

from tests.modelled import DELAYING, ModelCase, do_helpers, installed
from tests.support import TOP, run, table

FORMAT = 'nvme format /dev/nvme0n1 --lbaf 1 --force'


class Refuse(ModelCase, transcripts='refuse'):
    def test_counts(self):
        for rules, words, statuses, *left in table('refused_commands'):
            with self.subTest(rules):
                ended = self.shell(f'python3 {self.programs()}/sender.py {words}',
                                   options=[f'--refuse={rule}' for rule in rules.split()])
                told = ''.join(f'nvme-model: --{rule} refused no command; {count} came\n' for rule, count in left)
                self.ends(ended, 0, None, told.encode())
                self.assertEqual(ended.out.decode().split(), statuses.split())

    def test_what_is_not_refused(self):
        """The launcher's own commands, and those that a rule refuses aren't seen by a controller."""
        trace = self.folder / 'trace'
        options = ['--refuse=id-ctrl,0,99=1', '--refuse=id-ns,0,99=1', '--refuse=list-ns,0,99=1', f'--trace={trace}']
        script = 'ls /dev/nvme*; for command in id-ctrl id-ctrl "id-ns -n 1" list-ns; do ' \
                 'nvme $command /dev/nvme0 > /dev/null 2>&1; done'
        self.ends(self.shell('true', options=[f'--trace={trace}']), 0, b'', b'')
        own = trace.read_text()
        self.assertIn('nvme0 taken Identify ', own)
        ended = self.shell(script, options=options)
        self.ends(ended, 1, b'/dev/nvme0\n/dev/nvme0n1\n/dev/nvme0n2\n/dev/nvme1\n', b'')
        self.assertEqual(trace.read_text(), own)

    def test_names(self):
        """NVME-MODEL names the commands that the source has, in its order."""
        page = (TOP / 'docs/NVME-MODEL.md').read_text()
        listed = re.search(r'COMMAND is (`id-ctrl`.*?), the opcode', page, re.S)[1]
        source = (TOP / 'client/refuse.c').read_text()
        self.assertEqual(re.findall('`([a-z-]+)`', listed), re.findall(r'\{"([a-z-]+)", [01], ', source))

    def test_delays(self):
        started = time.monotonic()
        self.ends(self.shell(FORMAT, options=['--delay=format=3']), 0, b'Success formatting namespace:1\n')
        self.assertGreaterEqual(time.monotonic() - started, 3)
        # (nothing else waits meanwhile, so this ends long before the delay)
        running = self.stepped(f'{FORMAT} & step; nvme smart-log /dev/nvme0 > /dev/null; '
                               'head -c 1 /dev/nvme0n1 | wc -c; nvme flush /dev/nvme0n1; echo now; kill -KILL $!',
                               lambda: self.assertTrue(do_helpers(DELAYING, 1)),
                               options=['--delay=format=9000', '--delay=io:0,1=9000'])
        self.ends(running.end(), 0, b'step\n1\nNVMe Flush: success\nnow\n'
                  b'nvme-model: --delay io:0,1=9000 delayed no command; 1 came\n')
        # a command is delayed and then refused, and one whose process has gone is carried out
        running = self.stepped(f'{FORMAT}; {FORMAT} & step; kill -KILL $!; wait $!; echo "status $?"; '
                               'until nvme id-ns /dev/nvme0n1 | grep -q "lbads:12 .*in use"; do sleep 0.1; done',
                               lambda: self.assertTrue(do_helpers(DELAYING, 1)),
                               options=['--refuse=format=0x2002', '--delay=format,0,2=2'])
        ended = running.end()
        self.ends(ended, 0)
        self.assertRegex(ended.out, rb'\(0x2002\)\nstep\n(?s:.*)status 137\n$')

    def refuses(self, status, said, *words):
        ended = run(installed(), *words, 'true')
        self.ends(ended, status, b'')
        self.assertRegex(ended.err.decode(), said)

    def test_wrong_rules(self):
        for rule, said in table('wrong_rules'):
            for option in '--refuse', '--delay':
                with self.subTest(rule, option=option):
                    beginning = re.escape(f'nvme-model: {option} {rule}: {said}')
                    self.refuses(72, rf'\A{beginning}.*\nsee nvme-model --help\n\Z', option, rule)
        self.refuses(72, '=STATUS, with a STATUS of 1 to 0x7fff\n', '--refuse', 'format=0x8000')
        most = [word for _ in range(64) for word in ('--refuse', 'format=1')]
        self.refuses(0, r'(--refuse format=1 refused no command; 0 came\n.*){64}', *most)
        self.refuses(72, '--delay format=1: 64 rules are the most\n', *most, '--delay', 'format=1')
