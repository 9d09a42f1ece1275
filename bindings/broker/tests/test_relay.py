"""What passes a connection on, as a guard and the client's side of it do."""

from __future__ import annotations

import asyncio
import concurrent.futures
import socket
import tracemalloc
import unittest
from unittest import mock

from labrun_broker.relay import End, joins

QUERY = b"*IDN?\n"


class Reads(unittest.TestCase):
    def test_what_waits_stays_as_it_was(self) -> None:
        """A transport may keep what its socket doesn't take yet. What comes meanwhile, of another session too, changes nothing of that."""
        first, there, second, elsewhere = (End() for _ in range(4))
        for end in (first, there, second, elsewhere):
            end.connection_made(mock.Mock(**{"is_closing.return_value": False}))
        joins(first, there)
        joins(second, elsewhere)
        for end, text in ((first, b"OUTP 0"), (second, b"VOLT 9")):
            end.get_buffer(-1)[: len(text)] = text
            end.buffer_updated(len(text))
        kept = [bytes(end.transport.write.call_args.args[0]) for end in (there, elsewhere)]
        self.assertEqual(kept, [b"OUTP 0", b"VOLT 9"])

    def test_each_thread_reads_for_itself(self) -> None:
        here = End().get_buffer(-1)
        with concurrent.futures.ThreadPoolExecutor(1) as other:
            there = other.submit(End().get_buffer, -1).result()
        here[:1], there[:1] = b"a", b"b"
        self.assertEqual(bytes(here[:1]), b"a")


class Memory(unittest.IsolatedAsyncioTestCase):
    async def test_a_query_takes_little(self) -> None:
        """Were fresh memory taken for each read, as asyncio does (256 KiB), asking the kernel for it would take longer than all else."""
        loop = asyncio.get_running_loop()
        # (what it would note of each call is no matter)
        loop.set_debug(False)
        (program, one), (instrument, two) = socket.socketpair(), socket.socketpair()
        for it in (program, instrument, one, two):
            it.setblocking(False)
            self.addCleanup(it.close)
        ends = [(await loop.create_unix_connection(End, sock=it))[1] for it in (one, two)]
        joins(*ends)
        for turn in range(10):
            for near, far in ((program, instrument), (instrument, program)):
                near.send(QUERY)
                self.assertEqual(await loop.sock_recv(far, 64), QUERY)
            if turn == 1:
                tracemalloc.start()
                self.addCleanup(tracemalloc.stop)
        self.assertLess(tracemalloc.get_traced_memory()[1], 1 << 16)
        for end in ends:
            end.cut()
            await end.over.wait()


if __name__ == "__main__":
    unittest.main()
