"""The expected output of the printer on its example."""
import assembler


def printed(text):
    """What is printed for a text."""
    answer = assembler.assemble(text, 65536, assembler.MOST_LABELS, assembler.MOST_LINES)
    if answer.refused:
        return b"refused %d line %d\n" % answer.refused
    return "".join(f"{word:04x}\n" for word in assembler.words_of_bytes(answer.image)).encode()


def outputs():
    with open("examples/first.asm", "rb") as f:
        example = f.read()
    return {"crates/printer/stdin": example, "crates/printer/stdout": printed(example)}
