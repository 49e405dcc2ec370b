# SPDX-License-Identifier: ISC
"""Runs a function in a process of its own, since terms are never forgotten."""

import os
import pickle


def run(function):
    """What a function gives or raises. MemoryError where its process ended without an answer."""
    reader, writer = os.pipe()
    if (child := os.fork()) == 0:
        os.close(reader)
        _answer(function, writer)
    os.close(writer)
    with open(reader, "rb") as file:
        answer = file.read()
    os.waitpid(child, 0)
    if not answer:
        raise MemoryError
    found, fault = pickle.loads(answer)
    if fault:
        raise fault
    return found


def _answer(function, writer):
    """Writes what a function gives, and what it raises, and ends the process."""
    try:
        try:
            answer = pickle.dumps((function(), None))
        except Exception as fault:
            answer = pickle.dumps((None, fault))
        with open(writer, "wb") as file:
            file.write(answer)
    finally:
        os._exit(0)
