"""Command files that aren't refused: their words, variables and commands."""
import re

ESCAPES = {"n": "\n", "t": "\t"}
VARIABLE = re.compile(r"\$(?:\{([A-Za-z_][A-Za-z0-9_]{0,63})\}|([A-Za-z_][A-Za-z0-9_]{0,63}))")


class Node:
    def __init__(self, kind):
        self.kind, self.parms, self.wires = kind, {}, {}


class Script:
    """The nodes by name, and the echoed text."""

    def __init__(self, text):
        self.nodes, self.echoed, self.variables = {}, "", {}
        while True:
            words, text = self.command(text)
            if words is None:
                return
            self.carry_out(*words)

    def command(self, text):
        """The words of the first command of a text, and what stands behind it."""
        while True:
            text = text.lstrip(" \t\r\n")
            if not text:
                return None, ""
            if text[0] != "#":
                break
            text = text.partition("\n")[2]
        words = []
        while text and text[0] != "\n":
            word, text = self.word(text)
            words.append(word)
            text = text.lstrip(" \t\r")
        return words, text

    def word(self, text):
        if text[0] == "'":
            word, _, rest = text[1:].partition("'")
            return word, rest
        if text[0] == '"':
            inside = re.match(r'"((?:[^"\\]|\\.)*)"', text, re.DOTALL)
            return self.unescaped(inside[1]), text[inside.end() :]
        bare = re.match(r"[^ \t\r\n]+", text)
        return VARIABLE.sub(self.text_of, bare[0]), text[bare.end() :]

    def unescaped(self, text):
        pieces = re.compile(VARIABLE.pattern + r"|\\(.)", re.DOTALL)
        return pieces.sub(lambda it: ESCAPES.get(it[3], it[3]) if it[3] else self.text_of(it), text)

    def text_of(self, variable):
        return self.variables[variable[1] or variable[2]]

    def carry_out(self, command, *words):
        if command == "opadd":
            self.nodes[words[1]] = Node(words[0])
        elif command == "opparm":
            self.nodes[words[0]].parms.update(zip(words[1::2], words[2::2]))
        elif command == "opwire":
            self.nodes[words[0]].wires[int(words[1])] = words[2]
        elif command == "oprm":
            self.remove(words[0])
        elif command == "set":
            self.variables[words[0]] = words[2]
        else:
            self.echoed += " ".join(words) + "\n"

    def remove(self, name):
        del self.nodes[name]
        for node in self.nodes.values():
            node.wires = {number: source for number, source in node.wires.items() if source != name}
