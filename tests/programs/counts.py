"""Fails if a signal of the terminal comes again."""

import signal
import sys

signal.pthread_sigmask(signal.SIG_BLOCK, {signal.SIGINT})
print('ready', flush=True)
signal.sigwait({signal.SIGINT})
sys.exit(signal.sigtimedwait({signal.SIGINT}, 1))
