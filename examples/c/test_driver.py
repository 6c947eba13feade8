"""A unit test of a driver, without a device: `python3 -m unittest test_driver`, with nvme_controller.py on PYTHONPATH.

The driver that is tested is that of bench.py. Put your own in its place."""

import unittest

from bench import DATA, DEPTH, Host
from nvme_controller import CSTS, Machine, status_text

SUBSYSTEM = b"""
version = 1
nn = 2
tnvmcap = 1048576
subnqn = "nqn.2014-08.org.example:test"
[[format]]
lbads = 9
[[controller]]
cntlid = 0
sn = "TEST-1"
mn = "A drive for a test"
fr = "1.0"
elpe = 3
"""


class DriverTest(unittest.TestCase):
    def setUp(self):
        self.machine = Machine(SUBSYSTEM)
        self.addCleanup(self.machine.close)
        self.driver = Host(self.machine)

    def test_is_ready(self):
        self.assertEqual(self.machine.read32(0, CSTS), 1)

    def test_creates_until_the_capacity_is_used(self):
        self.assertEqual(self.driver.create_namespace(1024), (1, 0))
        _, status = self.driver.create_namespace(1025)
        self.assertEqual(status_text(status), 'Namespace Insufficient Capacity')
        self.assertEqual(self.driver.create_namespace(1024), (2, 0))

    def test_sends_more_than_a_ring_holds(self):
        for number in range(3 * DEPTH):
            with self.subTest(number):
                self.assertEqual(self.driver.send(0x06, cdw10=0x01)[1], 0)
                self.assertEqual(self.driver.memory[DATA + 4:DATA + 10], b'TEST-1')

    def test_what_was_refused_is_in_the_error_log(self):
        self.driver.send(0x01)
        self.driver.create_namespace(0)
        self.assertEqual([(error.cid, status_text(error.status)) for error in self.machine.error_log(0)],
                         [(1, 'Invalid Field in Command'), (0, 'Invalid Command Opcode')])
        self.assertEqual(self.machine.counts(0), (2, 2))
