"""The library's units in a desk's: no digit is lost."""
from typing import Optional


def megawatts(tenths: int) -> str:
    return f"{tenths // 10:,}.{tenths % 10} MW"


def dollars(cents: int) -> str:
    return f"${cents // 100:,}.{cents % 100:02} per MW-day"


def money(mills: int) -> str:
    return f"${mills // 1000:,}.{mills % 1000:03}"


def named(resource: int, step: int) -> str:
    """An offer by its resource, and by its step past the first."""
    return f"resource {resource}" + (f", step {step}" if step > 1 else "")


def sold(total: int, price: Optional[int]) -> str:
    """What clears, at which price. No price means one thing."""
    return "nothing cleared, no price" if price is None else f"cleared {megawatts(total)} at {dollars(price)}"
