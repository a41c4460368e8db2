"""Parts of pages that tests read."""

import re
from typing import List


def blocks(page: str, language: str) -> List[str]:
    """The blocks of code of a page that name this language."""
    return re.findall(rf"^```{language}\n(.*?)^```$", page, re.DOTALL | re.MULTILINE)
