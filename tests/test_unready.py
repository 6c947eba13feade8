"""Runs drivers, and scripts and requests that reset a controller, over buses whose RDY comes late or never. Such a bus
breaks its contract, so no proved program can have one. The module unready.rt.txt, which has such buses, is added to the
tests of a copy of nv_tests, which `rt try` runs. Without proofs, these run the scripts of nv_failing_tests too."""

import shutil

from tests.support import IS_UNPROVED, TOP, copy_sources
from tests.unproved import Tested


class Unready(Tested):
    def test_with_those_of_nv_tests(self):
        copy_sources(self.folder)
        crates, crate = self.folder / 'crates.txt', self.folder / 'crates/nv_tests'
        crates.write_text(crates.read_text().replace('\nnv_tests: ', '\nnv_tests: nv_serve '))
        added = [TOP / 'tests/unready.rt.txt']
        if IS_UNPROVED:
            parts = (TOP / 'crates/nv_failing_tests/src').glob('*.rt')
            added += [TOP / 'tests/cut_short.rt.txt', *(path for path in parts if path.name != 'main.rt')]
        with open(crate / 'src/lib.rt', 'a') as library:
            for path in added:
                name = path.name.partition('.')[0]
                shutil.copy(path, crate / f'src/{name}.rt')
                library.write(f'#[cfg(test)]\nmod {name};\n')
        self.check_crate(crate)
