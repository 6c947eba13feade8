"""Opens each file that its input names for writing, in several ways, and prints how many opens were done, how many
failed with EACCES, and which failed as none should."""

import os
import sys

from told import told

results = {'done': [], 'EACCES': []}
for name in sys.stdin.read().splitlines():
    for flags in os.O_WRONLY, os.O_RDWR, os.O_WRONLY | os.O_CREAT | os.O_TRUNC, os.O_TRUNC:
        result = told(os.open, name, flags)
        results.setdefault(result if isinstance(result, str) else 'done', []).append(name)
print(len(results.pop('done')), len(results.pop('EACCES')),
      {error: names for error, names in results.items() if error not in ('EROFS', 'ETXTBSY', 'ENOENT')})
