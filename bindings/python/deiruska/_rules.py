"""Rules of rule files."""
import ctypes

from ._connection import FilterConnection, Shown, _Owner
from ._faults import OK, RulesFault, check, fault_of
from ._library import LINE, Text, parameters_of


class Rules(_Owner):
    """The rules of a rule file: what a filter wants, and what it answers. Raises RulesFault where the text has none,
    with the line of the first fault."""

    def __init__(self, text: Text) -> None:
        super().__init__()
        line = LINE(0)
        number = self._call("rules_read", *parameters_of([text]), ctypes.byref(line))
        if number != OK:
            fault = fault_of(number)
            if isinstance(fault, RulesFault):
                fault.line = line.value or None
            raise fault


class RuledConnection(FilterConnection):
    """A filter's end of one connection that wants what rules do, and can be answered by them. At each question they may
    be other ones: rules that were read again."""

    def __init__(self, rules: Rules) -> None:  # pylint: disable=super-init-not-called
        """A connection of which nothing has come."""
        _Owner.__init__(self)
        with rules._lock:
            check(self._call("filter_new_by", rules._at))
        self.shown, self._built = Shown(self), None

    def answer_by(self, rules: Rules) -> None:
        """Answers the open question as the rules decide."""
        with rules._lock:
            check(self._call("filter_answer_by", rules._at))
