"""The end of the server after all that it was sent: this module is the last one of the part."""

from case import Case
from client import ENDED
from stage import shared_stage


class TheEnd(Case):
    def test_the_end(self) -> None:
        stage = shared_stage()
        self.same("the end of the server", stage.server.shut_down(stage.other), 0)
        said = f"listening on {stage.server.sockname}\n".encode() + ENDED
        self.same("what it said", stage.server.errors(), said)
