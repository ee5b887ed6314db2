"""The reports of many sheets on a cluster, by Dask (Debian: python3-distributed).

The sheets' bytes go to the workers and the answers come back, so that the machines share no folder. A worker that ends
is made good by Dask: what it had is calculated by another. Every answer is kept once, under its key.
"""

import logging
import re
import socket
from collections.abc import Iterable, Iterator
from typing import Any

from evp import library as calls
from evp.files import InputError
from evp.wording import quoted
from evp.years.needs import package
from evp.years.run import AHEAD, Chunk, Options, answers

TIMEOUT = 10  # seconds to find the scheduler
LEAST_AHEAD = 4  # chunks in flight while no worker is there yet


def worker_version() -> str:
    """The version of the library of a worker."""
    return ".".join(map(str, calls.load().version()))


def check_address(address: str) -> None:
    """InputError where no program answers at an address, such as tcp://head:8786; Dask itself would complain at
    length."""
    form = re.fullmatch(r"(?:(?:tcp|tls)://)?\[?([^\[\]/\s]+?)\]?:([0-9]{1,5})/?", address)
    if form is None or not 0 < int(form[2]) < 65_536:
        raise InputError("%s: this is no address of a scheduler; write it as tcp://host:8786" % quoted(address))
    try:
        socket.create_connection((form[1], int(form[2])), TIMEOUT).close()
    except OSError as error:
        raise InputError("%s: no scheduler of Dask answers there: %s" % (
            address, error.strerror or "it takes too long")) from None


class Cluster:
    """A scheduler with its workers."""

    def __init__(self, address: str, version: str) -> None:
        self._dask: Any = package("distributed")
        check_address(address)
        logging.getLogger("distributed").setLevel(logging.CRITICAL)  # what matters is said here in a sentence
        try:
            self._client: Any = self._dask.Client(address, timeout=TIMEOUT, set_as_default=False)
        except (OSError, ValueError, TypeError) as error:
            raise InputError("%s: no scheduler of Dask answers there: %s" % (
                address, str(error).splitlines()[0] if str(error) else type(error).__name__)) from None
        self._check(address, version)

    def _check(self, address: str, version: str) -> None:
        """That every worker has evp and the same library."""
        try:
            found: dict[str, str] = self._client.run(worker_version)
        except Exception as error:  # whatever a worker says
            raise InputError("%s: a worker cannot use evp: %s; install evp and its library on every worker, or start "
                             "it with PYTHONPATH and EVP_LIBRARY" % (address, str(error).splitlines()[0])) from None
        if not found:
            raise InputError("%s: the scheduler has no worker; start one: dask-worker %s" % (address, address))
        for worker, its in found.items():
            if its != version:
                raise InputError("%s: the worker %s has library %s, and this machine %s; all must have the same" % (
                    address, worker, its, version))

    @property
    def threads(self) -> int:
        return sum(self._client.nthreads().values())

    def run(self, chunks: Iterable[Chunk], options: Options) -> Iterator[tuple[list[str], list[str]]]:
        """The keys and answers of chunks, as they are finished; few are sent ahead."""
        pending: dict[Any, list[str]] = {}
        for chunk in chunks:
            future = self._client.submit(answers, chunk.sheets, options, pure=False, retries=3)
            pending[future] = chunk.keys
            if len(pending) >= max(LEAST_AHEAD, AHEAD * self.threads):
                yield from self._finished(pending)
        while pending:
            yield from self._finished(pending)

    def _finished(self, pending: dict[Any, list[str]]) -> Iterator[tuple[list[str], list[str]]]:
        with self._client.as_current():
            done = self._dask.wait(list(pending), return_when="FIRST_COMPLETED").done
        for future in done:
            keys = pending.pop(future)
            try:
                yield keys, future.result()
            except Exception as error:  # Dask has tried it on several workers
                raise InputError("the cluster has lost a part: %s; what is done is kept, and the same command goes on"
                                 % (str(error).splitlines() or [type(error).__name__])[0]) from None

    def close(self) -> None:
        self._client.close()
