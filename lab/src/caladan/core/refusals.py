"""Why a call is refused: with the thread, the action and the reason."""
from __future__ import annotations

from typing import Optional, Sequence

from .constants import ANSWER_TEXTS, JUDGEMENT_TEXTS, WHY_TEXTS, Answer, Judgement, Why, text_of
from .layout import Action, Look, Refused


class CallRefused(ValueError):
    """A call was refused. `answer` is the number of caladan.h; what is told is its text, and what more is known."""

    def __init__(self, answer: int, more: str = "") -> None:
        super().__init__(answer)
        self.answer: int = Answer(answer) if answer in list(Answer) else answer
        self.more = more

    def __str__(self) -> str:
        told = text_of(ANSWER_TEXTS, self.answer)
        return f"{told}: {self.more}" if self.more else told


class Unfit(CallRefused):
    """A look does not fit what its thread showed before, or has not the right shape: the first thread with such a look,
    that look, and its judgement, where that is known. Nothing has changed."""

    def __init__(self, thread: int, look: Look, judged: Optional[Judgement] = None) -> None:
        why = text_of(JUDGEMENT_TEXTS, judged) if judged else "it does not follow what the thread showed before"
        super().__init__(Answer.UNFIT, f"thread {thread}, {look!r}: {why}")
        self.thread, self.look, self.judged = thread, look, judged


class NotPermitted(CallRefused):
    """An action is not permitted: its place among those of the pass, from 0; the action, or None where the pass may not
    end after them; why not, and of WHY_BANNED_HELD the core and of WHY_OVER_CAP the task that it names. `judged` has
    what was judged of each look, where the pass took them one by one. Nothing has changed: hand it in again."""

    def __init__(self, refused: Refused, action: Optional[Action], judged: Sequence[Judgement]) -> None:
        self.refused, self.action, self.judged = refused, action, list(judged)
        self.place, self.names = refused.place, refused.names
        self.why = Why(refused.why)
        super().__init__(Answer.NOT_PERMITTED, f"{self.where()}: {text_of(WHY_TEXTS, refused.why)}{self.named()}")

    def where(self) -> str:
        """Which action it is."""
        if self.action is None:
            return f"the pass may not end after its {self.place} actions" if self.place else "the pass may not be empty"
        return f"action {self.place}, {self.action}"

    def named(self) -> str:
        """What the reason names."""
        kind = {Why.WHY_BANNED_HELD: "core", Why.WHY_OVER_CAP: "task"}.get(self.why)
        return f", {kind} {self.names}" if kind else ""


class Lost(CallRefused):
    """No page can show any more that the thread is gone."""

    def __init__(self, thread: int) -> None:
        super().__init__(Answer.LOST, f"thread {thread}")
        self.thread = thread
