"""How fast each operation is, beside ffmpeg's filter and OpenCV's: from the lines that `bench/filter plot` prints."""

import re

import drawing as d

PROGRAMS = {"y4mserve": "blue", "ffmpeg": "orange", "opencv": "green"}
NAMES = {"opencv": "OpenCV"}
LEFT, RIGHT, BAR, APART = 186, 730, 10, 12
LONGEST = 22
# what is told of all
TOLD = ("machine", "date", "stream", "runs", "versions")


def drawn(lines):
    told = dict(line.split(" ", 1) for line in lines if line.split(" ", 1)[0] in TOLD)
    rates, operations = {}, []
    for operation, program, rate in (line.split() for line in lines if re.fullmatch(r"\S+ (?:y4mserve|ffmpeg|opencv) \d+", line)):
        rates[operation, program] = int(rate)
        operations += [operation] if operation not in operations else []
    programs = [program for program in PROGRAMS if any((operation, program) in rates for operation in operations)]
    said = [line for text in about(lines, told, programs) for line in d.lines_within(text, d.WIDTH - 50, 11.5)]
    row, top = BAR * len(programs) + APART, 92 + 16 * len(said)
    picture = d.Picture(top + row * len(operations) + 24, f"MB of input a second, {told['date']}", lines)
    for number, line in enumerate(said):
        picture.text(20, 52 + 16 * number, line, "soft", 11.5)
    for number, program in enumerate(programs):
        picture.box(LEFT + 130 * number, top - 24, 11, 11, PROGRAMS[program])
        picture.text(LEFT + 130 * number + 17, top - 14, NAMES.get(program, program), "ink", 12)
    most = max(rates.values())
    for number, operation in enumerate(operations):
        draw_operation(picture, top + row * number, operation, [(program, rates.get((operation, program))) for program in programs], most)
    return picture


def about(lines, told, programs):
    """What ran, on what."""
    yield f"{told['machine']}; {told['versions']}."
    yield f"{told['stream']}, from a file in memory to nowhere; medians of {told['runs']} runs by turns."
    filters = [re.findall(r"(?:^|,)([a-z]+)(?==|,|$)", line.split(" ", 2)[2]) for line in lines if line.startswith("filter ")]
    yield f"ffmpeg filters by {', '.join(dict.fromkeys(name for names in filters for name in names))}, with its own threads."
    if "opencv" in programs:
        yield "OpenCV does each plane, called from Python, whose start isn't counted."
    for operation in (line.split()[1] for line in lines if line.startswith("filter ")):
        if short(operation) != operation:
            yield f"{short(operation)} is {operation}."


def draw_operation(picture, y, operation, rates, most):
    picture.text(LEFT - 8, y + BAR * len(rates) / 2 + 4, short(operation), "ink", 11.5, "end")
    for number, (program, rate) in enumerate(rates):
        if rate is not None:
            width = (RIGHT - LEFT) * rate / most
            picture.box(LEFT, y + BAR * number, width, BAR - 1.5, PROGRAMS[program])
            picture.text(LEFT + width + 5, y + BAR * number + 8, f"{rate:,}", "soft", 9.5)


def short(operation):
    """An operation as it is told, or a long chain without its numbers."""
    return operation if len(operation) <= LONGEST else re.sub(r":[\d,]+", "", operation)
