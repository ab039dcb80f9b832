"""Single steps that run exceptions whole: a handler that is met on the way is part of the step, as far as it returns.

An exception shows in a step after which the PC is not the earlier next PC. Its handler is over where the PC is EPC
again, or the address after it.
"""
from __future__ import annotations

from typing import Optional

from . import instruction, search
from .arguments import Parser
from .driver import Driver
from .limits import GREATEST_POSITION

HANDLER = 1 << 20  # the steps that a handler may take
NESTED = 64  # the exceptions that one step may meet


def add_option(parser: Parser) -> None:
    parser.add_argument("--through", action="store_true", help="single steps run exceptions whole, with their handlers")


def after(driver: Driver) -> int:
    """The position after the next instruction. Where a handler does not return it is the handler's first."""
    counter = driver.registers().pc
    for _ in range(NESTED):
        here = driver.position
        at = driver.registers()
        if not _exception(driver, here):
            driver.goto(here + 1)
            if at.pc == counter:
                break
            continue  # a branch, again: the instruction stands in its delay slot
        driver.goto(here + 1)
        address = driver.control()["epc"]
        limit = min(HANDLER, GREATEST_POSITION - driver.position)
        back = search.next_visit(driver, {address, address + 4}, limit)
        if back is None:
            break
        driver.goto(back)
        if driver.registers().pc != address and address == counter:
            break  # the handler went on after the instruction
    return driver.position


def before(driver: Driver) -> int:
    """The position before the last instruction. Where a handler's begin is not found it is the handler's last."""
    for _ in range(NESTED):
        here = driver.position
        following = driver.registers().pc
        driver.goto(here - 1)
        taken = _taken(driver, following)
        if taken is None:
            break
        driver.goto(taken)
        counter = driver.registers().pc
        if counter == following - 4 or not taken:
            break  # the handler went on after the instruction
        if counter == following + 4:
            driver.goto(taken - 1)  # the handler went back to the branch before it
        if not driver.position:
            break
    return driver.position


def _exception(driver: Driver, step: int) -> bool:
    """Whether a step takes an exception. The driver stands at it afterwards."""
    driver.goto(step + 1)
    counter = driver.registers().pc
    driver.goto(step)
    return counter != driver.registers().next_pc


def _taken(driver: Driver, following: int) -> Optional[int]:
    """The step that took the exception from which the next step returns to an address, if it does return from one."""
    here = driver.position
    if instruction.next_word(driver, driver.registers()) != instruction.RETURN:
        return None
    addresses = {following - 4, following, following + 4}
    step = search.last_visit(driver, addresses, max(0, here - HANDLER))
    taken = step if step is not None and _exception(driver, step) else None
    driver.goto(here)
    return taken
