"""Tests what stands around the drives of ./nvme-model: files of /sys, lists of /proc, records of udev; and that ioctls,
opens, reads and writes of nodes do what they do on Linux. The jobs of tests/linux and tests/linux/calls print what they
printed on a real one (JOB.txt, which tests/linux/keep makes), over drives as it had them, but for the lines of
JOB.differs, each below the sentence of the page that tells it."""

import difflib
import shutil
import unittest

from tests.modelled import DEVICES, ModelCase, signals
from tests.support import IS_ROOT, NOBODY, TOP, USERS, run
from tests.transcripts import WITH_UDEV

JOBS, CALLS = sorted((TOP / 'tests/linux').glob('*.sh')), TOP / 'tests/linux/calls'
TOLD = ' '.join((TOP / 'docs/NVME-MODEL.md').read_text().split() +
                (TOP / 'tests/linux/demo.toml').read_text().replace('\n# ', ' ').split())


class Jobs(ModelCase):
    def setUp(self):
        super().setUp()
        self.subsystem = self.file('qemu.toml', (TOP / 'tests/linux/demo.toml').read_bytes())

    def differences(self, job, user=(), options=()):
        """Returns the lines that differ, each after the mark of diff."""
        self.needs(job)
        shutil.copy(job, self.folder)
        ended = run(*WITH_UDEV, *user, *self.command('bash', self.folder / job.name, options=options),
                    cwd=self.folder, err='&1', env={'LANG': 'C', 'HOME': '/root'})
        wanted = job.with_suffix('.txt').read_text().splitlines()
        got = [*ended.out.decode().splitlines(), f'status {ended.status}']
        return [line for line in difflib.ndiff(wanted, got) if line[0] in '-+']

    def test_jobs(self):
        self.assertNotEqual(JOBS, [])
        for job in JOBS:
            file = job.with_suffix('.differs')
            lines = file.read_text().splitlines() if file.exists() else []
            for line in lines:
                self.assertTrue(line[0] in '-+' or line[2:] in TOLD, line)
            for user, options in [((), ()), (NOBODY, ['--root'])] if IS_ROOT else [((), ['--root'])]:
                with self.subTest(job.name, user=user):
                    self.assertEqual(self.differences(job, user, options), [line for line in lines if line[0] in '-+'])

    def test_calls(self):
        for name in 'blocks', 'lists':
            for user in USERS:
                for options in ((), ('--root',)) if user == USERS[-1] else ((),):
                    with self.subTest(name, user=user, options=options):
                        self.assertEqual(self.differences(CALLS / f'{name}.sh', user, options), [])

    @unittest.skipUnless(IS_ROOT, 'root alone can become another user')
    def test_rights(self):
        self.assertEqual(self.differences(CALLS / 'rights.sh'), [])


class Linux(ModelCase, transcripts='sys_names sys_written sys_lists other_ioctls'):
    def test_reset_of_a_lost_device(self):
        running = self.stepped('step; cd /sys/class/nvme/nvme0; for n in reset rescan; do '
                               '(echo 1 > ${n}_controller) 2>&1 | sed "s/.*: //"; done', signals(DEVICES, 9))
        self.assertRegex(running.end().out, b'(?s)\nNo such device or address\nNo such device or address\n$')

    def test_list_of_modules(self):
        # the machine's
        names = 'cat /proc/modules 2> /dev/null | cut -d " " -f 1'
        self.ends(self.shell(names), 0, run('sh', '-c', names).out, b'')
