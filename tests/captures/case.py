"""What is to come of a capture."""

from typing import NamedTuple, Optional, Tuple

from made import Program


class Case(NamedTuple):
    """A capture, the rule that its trace breaks and the call where it does, and what the summary has to say."""

    program: Program
    rule: Optional[str] = None
    call: Optional[int] = None
    says: Tuple[str, ...] = ()
    reads: Optional[str] = None
    status: int = 0
