"""Command files whose reading is measured: each function writes one of a size, of which the node `out` can be cooked."""

NODES = 1000
BYTES = 4 * 1024 * 1024


def write_nodes(folder, count, inputs):
    """Merges in a row, each with so many inputs wired to the one before; the last is `out`."""
    names = [f"n{number}" for number in range(count - 1)] + ["out"]
    with open(f"{folder}/cook.cmd", "w", encoding="ascii") as file:
        for before, name in zip([None] + names, names):
            file.write(f"opadd merge {name}\n")
            if before:
                file.writelines(f"opwire {name} {at} {before}\n" for at in range(inputs))


def write_chain(folder, count):
    write_nodes(folder, count, 1)


def write_wires(folder, count):
    write_nodes(folder, count, 32)


def write_sets(folder, size):
    """Comments and sets in turn, so many bytes in all; a comment fills the rest."""
    lines, left = ["opadd merge out\n"], size - len("opadd merge out\n")
    for number in range(size):
        line = f'# the line {number}\nset name{number % 100} = "a text with the number {number}"\n'
        if len(line) + 2 > left:
            break
        lines.append(line)
        left -= len(line)
    lines.append("#" * (left - 1) + "\n")
    with open(f"{folder}/cook.cmd", "w", encoding="ascii") as file:
        file.writelines(lines)


COMMAND_FILES = (
    ("nodes, a wire each", write_chain, NODES),
    ("nodes, 32 wires each", write_wires, NODES),
    ("bytes of comments and sets", write_sets, BYTES),
)
