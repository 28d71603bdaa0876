"""The drawings of docs/IDEA.md, made anew: python3 tools/idea_drawings.py

`drawings` gives the text of each by its file's name in docs/img; tools/test_idea.py holds the stored files to them.
"""
import os

import idea_requests
import idea_stages

FOLDER = os.path.join(os.path.dirname(os.path.dirname(os.path.abspath(__file__))), "docs", "img")
STAGES = ["tour", "doubling", "segments", "joins", "splice", "sides"]
OTHERS = ["believed", "leap", "ears", "passes", "seats", "faces"]


def drawings():
    made = {name: getattr(idea_stages, name) for name in STAGES}
    made |= {name: getattr(idea_requests, name) for name in OTHERS}
    return {f"idea-{name}.svg": draw().svg() for name, draw in made.items()}


if __name__ == "__main__":
    for file, text in drawings().items():
        with open(os.path.join(FOLDER, file), "w", encoding="utf-8") as out:
            out.write(text)
