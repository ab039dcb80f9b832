"""Where an address that a person gives leads: it is virtual at the position, and physical after `p:`.

All of RAM and ROM stands in kseg0 and kseg1 too, at any position. So a physical address is one of these, to what takes virtual
ones.
"""
from __future__ import annotations

from .driver import Driver
from .errors import Problem
from .limits import RAM, ROM

PHYSICAL = "p:"
_KERNEL = 0x8000_0000  # from it on, addresses are the kernel's

HELP = "An address is virtual at the position, and p:0x1000 is the physical address 0x1000."

UNMAPPED = {
    "adel": "it is an address error, as the machine is in user mode",
    "refill": "no translation entry has its page",
    "tlbl": "its translation entry is missing or not valid",
}
_MEMORY = "RAM is 8 MiB from 0x80000000 (physical 0), ROM 256 KiB from 0xbfc00000 (physical 0x1fc00000)"


def always_at(physical: int) -> int:
    """The virtual address at which a word of RAM or ROM stands at any position."""
    if physical in RAM:
        return 0x8000_0000 | physical
    if physical in ROM:
        return 0xA000_0000 | physical
    raise Problem(f"no memory stands at the physical address {physical:#x}: {_MEMORY}")


def check(address: int) -> None:
    """Refuses a number that is no address."""
    if not 0 <= address < 1 << 32:
        raise Problem(f"{address:#x} is no address: they are below 0x100000000")


def check_code(address: int) -> None:
    """Refuses a number that is no address of an instruction."""
    check(address)
    if address % 4:
        raise Problem(f"{address:#x} is no multiple of 4, where instructions stand")


def physical(driver: Driver, address: int) -> int:
    """The physical address in RAM or ROM that a virtual one leads to at the position, or a Problem that says what would lead
    there."""
    check(address)
    place = driver.physical(address)
    if place is None:
        raise Problem(why_nowhere(driver, address))
    if place in RAM or place in ROM:
        return place
    raise Problem(f"{address:#010x} leads to the physical address {place:#010x}, where no memory is: {_MEMORY}")


def why_nowhere(driver: Driver, address: int) -> str:
    """Why an address leads nowhere at the position, and what would lead there."""
    kind = driver.where(address).kind
    why = f"{address:#010x} leads nowhere at this position: {UNMAPPED[kind]}"
    if kind == "adel":
        return f"{why}. It leads to memory in kernel mode alone"
    mostly = ", mostly in user mode" if address < _KERNEL else ""
    why += f". It leads to memory at positions where an entry maps its page {address >> 12:#07x}{mostly}"
    if address in RAM or address in ROM:
        why += f". The word with that physical address is at {always_at(address):#010x}, which is {PHYSICAL}{address:#x}"
    return why
