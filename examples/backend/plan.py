"""What is planned before any code is made: the arrays, where calls return to, and what is kept meanwhile."""

from blocks import Code, Words

from wavescalar import Builder


class Plan:
    """`returns` are the return points of each procedure in the order of their addresses, from 0; `kept`, by
    return point, what the caller stores before the call and loads behind it, each with its hidden cell."""

    def __init__(self, code: Code) -> None:
        self.code, self.builder = code, Builder()
        self.arrays = {name: self.builder.array(name, length) for name, length in code.arrays.items()}
        self.returns: dict[str, Words] = {}
        self.kept: dict[str, dict[str, int]] = {}
        cells: dict[tuple[str, str], int] = {}
        for block in code.blocks.values():
            if block.exit[0] == "call":
                callee, label = block.leads()
                after = code.blocks[label]
                self.returns.setdefault(callee, []).append(label)
                self.kept[label] = {name: cells.setdefault((after.proc, name), len(cells))
                                    for name in sorted(after.live - set(after.takes()))}
        self.hidden = self.builder.hidden(max(1, len(cells)))
